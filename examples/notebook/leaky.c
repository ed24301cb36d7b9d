/* A module that counts its calls by a secret bit, with a branch. And a program that calls it once. */
#include "sancus.h"

SM_DATA(vault) unsigned secret = 1;
SM_BSS(vault) unsigned ones, zeros;

SM_FUNCTION(vault) unsigned tick(unsigned unused)
{
    if (secret & 1)
        ones += 1;
    else
        zeros ^= ones;
    return 0;
}

SM_START(0x0e00);

int main(void)
{
    SM_CALL(0x1000, 0, 0);
    for (;;)
        ;
}
