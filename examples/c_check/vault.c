/* A module in C without a branch: it counts its calls by a secret bit. And a program that calls it once. */
#include "sancus.h"

SM_DATA(vault) unsigned secret = 1;
SM_BSS(vault) unsigned ones, zeros;

SM_FUNCTION(vault) unsigned tick(unsigned unused)
{
    unsigned bit = secret & 1;
    ones += bit;
    zeros += 1 - bit;
    return 0;
}

SM_START(0x0e00);

int main(void)
{
    SM_CALL(0x1000, 0, 0);
    for (;;)
        ;
}
