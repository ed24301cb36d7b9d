/* A tag of 32 bytes under a secret key: Speck32/64 in the mode CBC, a block of two words a call, its 22 rounds unrolled. */
#include "sancus.h"

#define MAC_TEXT 0x1000

SM_DATA(mac) unsigned round_keys[22] = {
    0x0100, 0x1512, 0x617d, 0x1458, 0x6919, 0x77e2, 0x0c89, 0xccdb, 0xefea, 0x4e33, 0x76f4,
    0x5976, 0xee8b, 0xdb04, 0x4617, 0xf37e, 0x87b4, 0x8eca, 0xed9b, 0x3a52, 0x8229, 0xed64,
};
SM_BSS(mac) unsigned left, right;

SM_FUNCTION(mac) unsigned absorb(unsigned first, unsigned second)
{
    unsigned x = left ^ first, y = right ^ second;
#pragma unroll
    for (unsigned n = 0; n < 22; n++) {
        x = (x >> 7 | x << 9) + y ^ round_keys[n];
        y = (y << 2 | y >> 14) ^ x;
    }
    left = x;
    right = y;
    return 0;
}

SM_FUNCTION(mac) unsigned tag(unsigned low)
{
    unsigned first = left, second = right;
    return low ? second : first;
}

SM_START(0x0e00);

static void send(unsigned word)
{
    SERIAL_DATA = word >> 8;
    SERIAL_DATA = word;
}

int main(void)
{
    for (unsigned n = 0; n < 32; n += 4)
        SM_CALL_4(MAC_TEXT, 0, n + 256 * (n + 1), n + 2 + 256 * (n + 3), 0, 0);
    send(SM_CALL(MAC_TEXT, 1, 0));
    send(SM_CALL(MAC_TEXT, 1, 1));
    for (;;)
        ;
}
