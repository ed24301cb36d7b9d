/* Table look-ups: CRC-16 by a table of 256 words, and a histogram of the bytes of a buffer. */
#include "program.h"

#define TIMES 1300

static word table[256], histogram[64];
static byte buffer[512];

static void make(void)
{
    for (word n = 0; n < 256; n++) {
        word sum = n << 8;
        for (byte bit = 0; bit < 8; bit++)
            sum = sum & 0x8000 ? sum << 1 ^ 0x1021 : sum << 1;
        table[n] = sum;
    }
}

static word crc(const byte *at, word count)
{
    word sum = 0xffff;
    while (count--)
        sum = sum << 8 ^ table[(byte)(sum >> 8) ^ *at++];
    return sum;
}

int main(void)
{
    word wrong = 0;
    make();
    for (word k = 0; k < 512; k++)
        buffer[k] = (byte)(k * 7);
    if (crc((const byte *)"123456789", 9) != 0x29b1)
        wrong++;
    for (word n = 0; n < TIMES; n++) {
        buffer[n & 511] = (byte)crc(buffer, 512);
        for (word k = 0; k < 512; k++)
            histogram[buffer[k] & 63]++;
    }
    word sum = 0;
    for (byte k = 0; k < 64; k++)
        sum += histogram[k];
    if (sum != (word)(512ul * TIMES))
        wrong++;
    finish(wrong);
}
