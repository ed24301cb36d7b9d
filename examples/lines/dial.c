/* Two mistakes: `sum` looks past the end of its numbers, and the module calls what its data name. */
#include "sancus.h"

#define DIAL_TEXT 0x1000

static unsigned numbers[8] = {3, 1, 4, 1, 5, 9, 2, 6};

SM_DATA(dial) unsigned position = 1;

SM_FUNCTION(dial) static unsigned up(unsigned by)
{
    position += by;
    return 0;
}

SM_FUNCTION(dial) static unsigned down(unsigned by)
{
    position -= by;
    return 0;
}

typedef unsigned (*turning)(unsigned);

SM_DATA(dial) turning turned_by = up;

SM_FUNCTION(dial) unsigned turn(unsigned back)
{
    if (back)
        turned_by = down;
    return turned_by(1);
}

SM_START(0x0e00);

static unsigned sum(const volatile unsigned *from, unsigned count)
{
    unsigned total = 0;
    while (count--)
        total += *from++;
    return total;
}

int main(void)
{
    SM_CALL(DIAL_TEXT, 0, 1);
    SERIAL_DATA = sum(numbers, 1000);
    for (;;)
        ;
}
