/* A module that adds up, and code outside with a mistake: `spy` reads the module's data. */
#include "sancus.h"

SM_BSS(vault) unsigned total;

SM_FUNCTION(vault) unsigned put(unsigned amount)
{
    total += amount;
    return total;
}

SM_START(0x2000); /* above the module, since lldb takes the frame with the lower address for the inner one */

volatile unsigned shown;

__attribute__((noinline)) unsigned spy(const volatile unsigned *place)
{
    return *place;
}

int main(void)
{
    shown = SM_CALL(0x1000, 0, 5);
    shown = SM_CALL(0x1000, 0, 7);
    shown = spy((const unsigned *)0x1100);
    for (;;)
        ;
}
