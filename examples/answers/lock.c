/* A lock with a secret number: it answers whether a guess is right, three times at most. */
#include "sancus.h"

#define LOCK_TEXT 0x1000

SM_DATA(lock) unsigned secret = 0x1234;
SM_BSS(lock) unsigned attempts; /* public */

SM_FUNCTION(lock) unsigned try(unsigned guess)
{
    if (attempts == 3)
        return 0;
    attempts++;
    return guess == secret;
}

SM_START(0x0e00);

int main(void)
{
    SERIAL_DATA = '0' + SM_CALL(LOCK_TEXT, 0, 0x1111);
    SERIAL_DATA = '0' + SM_CALL(LOCK_TEXT, 0, 0x1234);
    for (;;)
        ;
}
