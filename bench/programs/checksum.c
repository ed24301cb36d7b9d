/* CRC-16 (polynomial 0x1021, from 0xffff) bit by bit, and Fletcher's checksum, of a buffer, again and again. */
#include "program.h"

#define TIMES 330

static byte buffer[256];

static word crc(const byte *at, word count)
{
    word sum = 0xffff;
    while (count--) {
        sum ^= (word)*at++ << 8;
        for (byte bit = 0; bit < 8; bit++)
            sum = sum & 0x8000 ? sum << 1 ^ 0x1021 : sum << 1;
    }
    return sum;
}

static word fletcher(const byte *at, word count)
{
    word low = 0, high = 0;
    while (count--) {
        low += *at++;
        if (low >= 255)
            low -= 255;
        high += low;
        if (high >= 255)
            high -= 255;
    }
    return high << 8 | low;
}

int main(void)
{
    word wrong = 0;
    static const byte check[9] = "123456789";
    for (word k = 0; k < 256; k++)
        buffer[k] = (byte)k;
    if (crc(check, 9) != 0x29b1) /* the check value of CRC-16/IBM-3740 */
        wrong++;
    if (fletcher((const byte *)"abcde", 5) != 0xc8f0) /* a published check value of Fletcher-16 */
        wrong++;
    word first = crc(buffer, 256);
    for (word n = 0; n < TIMES; n++) {
        if (crc(buffer, 256) != first)
            wrong++;
        fletcher(buffer, 256);
        buffer[n & 255] ^= 0;
    }
    finish(wrong);
}
