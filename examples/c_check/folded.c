/* The same with the secret a plain static: nothing changes it, so the compiler writes its value into the text. */
#include "sancus.h"

static __attribute__((section(".sm.vault.data"))) unsigned secret = 1;
SM_BSS(vault) unsigned ones, zeros;

SM_FUNCTION(vault) unsigned tick(unsigned unused)
{
    unsigned bit = secret & 1;
    ones += bit;
    zeros += 1 - bit;
    return 0;
}

SM_START(0x0e00);

int main(void)
{
    SM_CALL(0x1000, 0, 0);
    for (;;)
        ;
}
