/* The same lock, whose secret is four digits that are compared one by one: it answers at the first that is wrong. */
#include "sancus.h"

#define LOCK_TEXT 0x1000

SM_DATA(lock) unsigned char secret[4] = {1, 2, 3, 4};

SM_FUNCTION(lock) unsigned try(unsigned first, unsigned second)
{
    if (secret[0] != first >> 8)
        return 0;
    if (secret[1] != (first & 255))
        return 0;
    if (secret[2] != second >> 8)
        return 0;
    return secret[3] == (second & 255);
}

SM_START(0x0e00);

int main(void)
{
    SM_CALL_4(LOCK_TEXT, 0, 0x0105, 0x0607, 0, 0);
    SERIAL_DATA = '.';
    for (;;)
        ;
}
