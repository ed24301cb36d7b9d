/* SHA-256 (FIPS 180-4) with its padding, in pieces of any size, and HMAC (FIPS 198-1) over it, on the examples of the standards. */
#include "program.h"

#define BLOCK 64
#define DIGEST 32

/* ---- the compression function */

static const dword constants[64] = {
    0x428a2f98, 0x71374491, 0xb5c0fbcf, 0xe9b5dba5, 0x3956c25b, 0x59f111f1, 0x923f82a4, 0xab1c5ed5,
    0xd807aa98, 0x12835b01, 0x243185be, 0x550c7dc3, 0x72be5d74, 0x80deb1fe, 0x9bdc06a7, 0xc19bf174,
    0xe49b69c1, 0xefbe4786, 0x0fc19dc6, 0x240ca1cc, 0x2de92c6f, 0x4a7484aa, 0x5cb0a9dc, 0x76f988da,
    0x983e5152, 0xa831c66d, 0xb00327c8, 0xbf597fc7, 0xc6e00bf3, 0xd5a79147, 0x06ca6351, 0x14292967,
    0x27b70a85, 0x2e1b2138, 0x4d2c6dfc, 0x53380d13, 0x650a7354, 0x766a0abb, 0x81c2c92e, 0x92722c85,
    0xa2bfe8a1, 0xa81a664b, 0xc24b8b70, 0xc76c51a3, 0xd192e819, 0xd6990624, 0xf40e3585, 0x106aa070,
    0x19a4c116, 0x1e376c08, 0x2748774c, 0x34b0bcb5, 0x391c0cb3, 0x4ed8aa4a, 0x5b9cca4f, 0x682e6ff3,
    0x748f82ee, 0x78a5636f, 0x84c87814, 0x8cc70208, 0x90befffa, 0xa4506ceb, 0xbef9a3f7, 0xc67178f2,
};

static const dword first[8] = {0x6a09e667, 0xbb67ae85, 0x3c6ef372, 0xa54ff53a, 0x510e527f, 0x9b05688c, 0x1f83d9ab, 0x5be0cd19};

struct hash {
    dword state[8];
    byte block[BLOCK];
    word held;
    dword length;
};

/* To the right, and by the shorter way from a half: this processor shifts by one bit, and moves words. */
static dword rotated(dword x, byte by)
{
    if (by >= 16) {
        x = x >> 16 | x << 16;
        by -= 16;
    }
    if (by > 8) {
        for (by = 16 - by; by > 0; by--)
            x = x + x + (x >> 31);
        return x >> 16 | x << 16;
    }
    for (; by > 0; by--)
        x = x >> 1 | (x & 1 ? 0x80000000 : 0);
    return x;
}

static dword choice(dword x, dword y, dword z)
{
    return (x & y) ^ (~x & z);
}

static dword majority(dword x, dword y, dword z)
{
    return (x & y) ^ (x & z) ^ (y & z);
}

static dword large_0(dword x)
{
    return rotated(x, 2) ^ rotated(x, 13) ^ rotated(x, 22);
}

static dword large_1(dword x)
{
    return rotated(x, 6) ^ rotated(x, 11) ^ rotated(x, 25);
}

static dword small_0(dword x)
{
    return rotated(x, 7) ^ rotated(x, 18) ^ x >> 3;
}

static dword small_1(dword x)
{
    return rotated(x, 17) ^ rotated(x, 19) ^ x >> 10;
}

static dword schedule[64];

static void spread(const byte *block)
{
    for (word i = 0; i < 16; i++, block += 4)
        schedule[i] = (dword)block[0] << 24 | (dword)block[1] << 16 | (dword)block[2] << 8 | block[3];
    for (word i = 16; i < 64; i++)
        schedule[i] = small_1(schedule[i - 2]) + schedule[i - 7] + small_0(schedule[i - 15]) + schedule[i - 16];
}

static void compress(struct hash *it)
{
    dword s[8];
    spread(it->block);
    memcpy(s, it->state, sizeof s);
    for (word i = 0; i < 64; i++) {
        dword one = s[7] + large_1(s[4]) + choice(s[4], s[5], s[6]) + constants[i] + schedule[i];
        dword two = large_0(s[0]) + majority(s[0], s[1], s[2]);
        for (word k = 7; k > 0; k--)
            s[k] = s[k - 1];
        s[4] += one;
        s[0] = one + two;
    }
    for (word i = 0; i < 8; i++)
        it->state[i] += s[i];
}

/* ---- a message in pieces */

static void begin(struct hash *it)
{
    memcpy(it->state, first, sizeof first);
    it->held = 0;
    it->length = 0;
}

static void take(struct hash *it, const byte *bytes, word count)
{
    it->length += count;
    while (count > 0) {
        word room = BLOCK - it->held, part = count < room ? count : room;
        memcpy(it->block + it->held, bytes, part);
        it->held += part;
        bytes += part;
        count -= part;
        if (it->held == BLOCK) {
            compress(it);
            it->held = 0;
        }
    }
}

/* A bit that is set, zeros, and the number of bits in eight bytes, high byte first. */
static void finish_hash(struct hash *it, byte *digest)
{
    dword bits = it->length << 3;
    it->block[it->held++] = 0x80;
    if (it->held > BLOCK - 8) {
        memset(it->block + it->held, 0, BLOCK - it->held);
        compress(it);
        it->held = 0;
    }
    memset(it->block + it->held, 0, BLOCK - it->held);
    for (word i = 0; i < 4; i++, bits >>= 8)
        it->block[BLOCK - 1 - i] = (byte)bits;
    compress(it);
    for (word i = 0; i < 8; i++) {
        dword part = it->state[i];
        for (word k = 4; k-- > 0; part >>= 8)
            digest[4 * i + k] = (byte)part;
    }
}

static struct hash work;

static void hash_of(const byte *message, word count, byte *digest)
{
    begin(&work);
    take(&work, message, count);
    finish_hash(&work, digest);
}

/* ---- HMAC */

static void take_key(const byte *key, word count, byte pad)
{
    byte block[BLOCK] = {0};
    memcpy(block, key, count);
    for (word i = 0; i < BLOCK; i++)
        block[i] ^= pad;
    begin(&work);
    take(&work, block, BLOCK);
}

static void hmac(const byte *key, word key_count, const byte *message, word count, byte *tag)
{
    byte short_key[DIGEST];
    if (key_count > BLOCK) {
        hash_of(key, key_count, short_key);
        key = short_key;
        key_count = DIGEST;
    }
    take_key(key, key_count, 0x36);
    take(&work, message, count);
    finish_hash(&work, tag);
    take_key(key, key_count, 0x5c);
    take(&work, tag, DIGEST);
    finish_hash(&work, tag);
}

/* ---- the examples, each with the first four bytes of what is right, and its last four */

struct example {
    const char *message;
    word count;
    dword front, back;
};

#define LONG_TEXT "abcdbcdecdefdefgefghfghighijhijkijkljklmklmnlmnomnopnopq"
#define LONGER_TEXT "abcdefghbcdefghicdefghijdefghijkefghijklfghijklmghijklmnhijklmnoijklmnopjklmnopqklmnopqrlmnopqrsmnopqrstnopqrstu"

static const struct example hashes[] = {
    {"", 0, 0xe3b0c442, 0x7852b855},
    {"abc", 3, 0xba7816bf, 0xf20015ad},
    {LONG_TEXT, sizeof LONG_TEXT - 1, 0x248d6a61, 0x19db06c1},
    {LONGER_TEXT, sizeof LONGER_TEXT - 1, 0xcf5b16a7, 0x7afee9d1},
};

#define EXAMPLES (sizeof hashes / sizeof *hashes)

static byte digest[DIGEST], other[DIGEST];

static dword four(const byte *bytes)
{
    return (dword)bytes[0] << 24 | (dword)bytes[1] << 16 | (dword)bytes[2] << 8 | bytes[3];
}

static int is(dword front, dword back)
{
    return four(digest) == front && four(digest + DIGEST - 4) == back;
}

static int equal(void)
{
    byte differ = 0;
    for (word i = 0; i < DIGEST; i++)
        differ |= digest[i] ^ other[i];
    return differ == 0;
}

/* The digest of the last message, taken byte by byte and in pieces of 63 and 1, is the same. */
static word in_pieces(const byte *message, word count)
{
    word passed = 0;
    begin(&work);
    for (word i = 0; i < count; i++)
        take(&work, message + i, 1);
    finish_hash(&work, other);
    passed |= (word)equal();
    begin(&work);
    take(&work, message, 63);
    take(&work, message + 63, 1);
    take(&work, message + 64, count - 64);
    finish_hash(&work, other);
    return passed | (word)equal() << 1;
}

/* Test cases 1, 2, 3 and 6 of RFC 4231; the last key is longer than a block. */
static word of_hmac(void)
{
    static byte key[131], message[54];
    word passed = 0;
    memset(key, 0x0b, 20);
    hmac(key, 20, (const byte *)"Hi There", 8, digest);
    passed |= (word)is(0xb0344c61, 0x2e32cff7);
    hmac((const byte *)"Jefe", 4, (const byte *)"what do ya want for nothing?", 28, digest);
    passed |= (word)is(0x5bdcc146, 0x64ec3843) << 1;
    memset(key, 0xaa, 131);
    memset(message, 0xdd, 50);
    hmac(key, 20, message, 50, digest);
    passed |= (word)is(0x773ea91e, 0xced565fe) << 2;
    hmac(key, 131, (const byte *)"Test Using Larger Than Block-Size Key - Hash Key First", 54, digest);
    return passed | (word)is(0x60e43159, 0x0ee37f54) << 3;
}

int main(void)
{
    word result[8] = {0};
    for (word k = 0; k < EXAMPLES; k++) {
        hash_of((const byte *)hashes[k].message, hashes[k].count, digest);
        result[0] |= (word)is(hashes[k].front, hashes[k].back) << k;
    }
    result[1] = in_pieces((const byte *)hashes[EXAMPLES - 1].message, hashes[EXAMPLES - 1].count);
    result[2] = of_hmac();
    hash_of((const byte *)"abc", 3, digest);
    for (word k = 3; k < 8; k++)
        result[k] = (word)digest[2 * k - 6] << 8 | digest[2 * k - 5];
    finish(result);
    return 0;
}
