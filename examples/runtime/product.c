/* A product and a quotient outside modules. */
#include "sancus.h"

static volatile unsigned left = 12, right = 5;

SM_START(0x0e00);

int main(void)
{
    SERIAL_DATA = left * right;
    SERIAL_DATA = left / right;
    for (;;)
        ;
}
