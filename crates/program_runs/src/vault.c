/* A module that counts its calls by a secret bit, without a branch, and a program that calls it again and again while a line interrupts. */
#include "sancus.h"

SM_DATA(vault) unsigned secret = 1;
SM_BSS(vault) unsigned ones, zeros;

SM_FUNCTION(vault) unsigned tick(unsigned unused)
{
    unsigned bit = secret & 1;
    ones += bit;
    zeros += 1 - bit;
    return 0;
}

SM_START(0x0e00);

__attribute__((interrupt(1))) void handled(void)
{
    SERIAL_DATA = '.';
}

int main(void)
{
    LINE_ENABLE = 1;
    ENABLE_INTERRUPTS();
    for (;;)
        SM_CALL(0x1000, 0, 0);
}
