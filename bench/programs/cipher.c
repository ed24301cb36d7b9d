/* AES-128 byte by byte, without tables but the S-box, which is made first: the first vector of FIPS 197, again and again. */
#include "program.h"

#define TIMES 280

static byte box[256], keys[176], state[16];

static byte doubled(byte x)
{
    return (byte)(x << 1 ^ (x & 0x80 ? 0x1b : 0));
}

static byte turned(byte x, byte n)
{
    return (byte)(x << n | x >> (8 - n));
}

/* p runs through all powers of 3, q through their inverses. */
static void make(void)
{
    byte p = 1, q = 1;
    do {
        p = (byte)(p ^ doubled(p));
        q ^= (byte)(q << 1);
        q ^= (byte)(q << 2);
        q ^= (byte)(q << 4);
        if (q & 0x80)
            q ^= 0x09;
        box[p] = (byte)(q ^ turned(q, 1) ^ turned(q, 2) ^ turned(q, 3) ^ turned(q, 4) ^ 0x63);
    } while (p != 1);
    box[0] = 0x63;
}

static void expand(void)
{
    byte round = 1;
    for (byte k = 0; k < 16; k++)
        keys[k] = k;
    for (byte k = 16; k < 176; k += 4) {
        byte last[4];
        for (byte n = 0; n < 4; n++)
            last[n] = keys[k - 4 + n];
        if (k % 16 == 0) {
            byte first = last[0];
            last[0] = (byte)(box[last[1]] ^ round);
            last[1] = box[last[2]];
            last[2] = box[last[3]];
            last[3] = box[first];
            round = doubled(round);
        }
        for (byte n = 0; n < 4; n++)
            keys[k + n] = (byte)(keys[k + n - 16] ^ last[n]);
    }
}

static void add(const byte *key)
{
    for (byte k = 0; k < 16; k++)
        state[k] ^= key[k];
}

static void substitute_and_shift(void)
{
    byte was[16];
    for (byte k = 0; k < 16; k++)
        was[k] = box[state[k]];
    for (byte k = 0; k < 16; k++)
        state[k] = was[(k + 4 * (k % 4)) & 15];
}

static void mix(void)
{
    for (byte *at = state; at < state + 16; at += 4) {
        byte all = (byte)(at[0] ^ at[1] ^ at[2] ^ at[3]), first = at[0];
        for (byte k = 0; k < 4; k++)
            at[k] ^= (byte)(all ^ doubled((byte)(at[k] ^ (k == 3 ? first : at[k + 1]))));
    }
}

static void encrypt(void)
{
    add(keys);
    for (byte round = 1; round < 10; round++) {
        substitute_and_shift();
        mix();
        add(keys + 16 * round);
    }
    substitute_and_shift();
    add(keys + 160);
}

int main(void)
{
    static const byte known[16] = {0x69, 0xc4, 0xe0, 0xd8, 0x6a, 0x7b, 0x04, 0x30,
                                   0xd8, 0xcd, 0xb7, 0x80, 0x70, 0xb4, 0xc5, 0x5a};
    word wrong = 0;
    make();
    expand();
    for (word n = 0; n < TIMES; n++) {
        for (byte k = 0; k < 16; k++)
            state[k] = (byte)(k * 0x11);
        encrypt();
        for (byte k = 0; k < 16; k++)
            if (state[k] != known[k])
                wrong++;
    }
    finish(wrong);
}
