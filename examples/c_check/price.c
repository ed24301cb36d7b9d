/* A module with a switch on its argument, which is no secret. */
#include "sancus.h"

SM_BSS(vault) unsigned total;

SM_FUNCTION(vault) unsigned tick(unsigned ware)
{
    switch (ware) {
    case 0:
        total += 5;
        break;
    case 1:
        total += 12;
        break;
    case 2:
        total ^= 31;
        break;
    case 3:
        total += 77;
        break;
    case 4:
        total -= 3;
        break;
    case 5:
        total |= 80;
        break;
    }
    return 0;
}

SM_START(0x0e00);

int main(void)
{
    SM_CALL(0x1000, 0, 3);
    for (;;)
        ;
}
