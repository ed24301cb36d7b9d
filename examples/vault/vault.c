/* ChaCha20 (RFC 8439) in a module: key, nonce and counter are in its data, and each call seals a byte. All
 * indices are constants, so each access has one address: the checker can say yes. */
#include "vault.h"
#include <stdint.h>

/* Volatile, so that the key is in the data and not folded into the text. The first block has the number 1. */
static volatile uint32_t key[8] = {0x03020100, 0x07060504, 0x0b0a0908, 0x0f0e0d0c,
                                   0x13121110, 0x17161514, 0x1b1a1918, 0x1f1e1d1c};
static volatile uint32_t nonce[3] = {0x00000000, 0x4a000000, 0x00000000};
static volatile uint32_t counter = 1;
static volatile unsigned left; /* public: how many bytes of the stream are left */
static volatile uint32_t state[16];
static union {
    uint32_t word[16];
    uint8_t byte[64];
} stream;

#define ROTATE(value, by) ((value) << (by) | (value) >> (32 - (by)))
#define QUARTER(a, b, c, d)                                      \
    a += b, d ^= a, d = ROTATE(d, 16), c += d, b ^= c, b = ROTATE(b, 12), \
    a += b, d ^= a, d = ROTATE(d, 8), c += d, b ^= c, b = ROTATE(b, 7)

static void begin(void)
{
    state[0] = 0x61707865, state[1] = 0x3320646e, state[2] = 0x79622d32, state[3] = 0x6b206574;
#pragma unroll
    for (unsigned k = 0; k < 8; k++)
        state[4 + k] = key[k];
    state[12] = counter, state[13] = nonce[0], state[14] = nonce[1], state[15] = nonce[2];
}

static void block(void)
{
    uint32_t *const x = stream.word;
    begin();
#pragma unroll
    for (unsigned k = 0; k < 16; k++)
        x[k] = state[k];
#pragma nounroll
    for (unsigned round = 0; round < 10; round++) {
        QUARTER(x[0], x[4], x[8], x[12]);
        QUARTER(x[1], x[5], x[9], x[13]);
        QUARTER(x[2], x[6], x[10], x[14]);
        QUARTER(x[3], x[7], x[11], x[15]);
        QUARTER(x[0], x[5], x[10], x[15]);
        QUARTER(x[1], x[6], x[11], x[12]);
        QUARTER(x[2], x[7], x[8], x[13]);
        QUARTER(x[3], x[4], x[9], x[14]);
    }
#pragma unroll
    for (unsigned k = 0; k < 16; k++)
        x[k] += state[k];
    counter++;
}

unsigned seal(unsigned byte)
{
    if (!left) {
        block();
        left = 64;
    }
    unsigned sealed = (byte ^ stream.byte[0]) & 0xff;
#pragma unroll
    for (unsigned k = 0; k < 15; k++)
        stream.word[k] = stream.word[k] >> 8 | stream.word[k + 1] << 24;
    stream.word[15] >>= 8;
    left--;
    return sealed;
}
