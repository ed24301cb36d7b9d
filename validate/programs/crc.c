/* Cyclic redundancy checks by their parameters: bit by bit, by a table of bytes and by a table of half bytes, and two sums beside them. */
#include "program.h"

/* ---- the parameters, with the check that each is known by: its value of the text "123456789" */

struct kind {
    byte width;
    byte mirrored; /* bytes and the result go low bit first */
    dword polynomial, first, last, check;
};

static const struct kind kinds[] = {
    {8, 0, 0x07, 0x00, 0x00, 0xF4},                         /* CRC-8/SMBUS */
    {8, 1, 0x31, 0x00, 0x00, 0xA1},                         /* CRC-8/MAXIM-DOW */
    {16, 0, 0x1021, 0xFFFF, 0x0000, 0x29B1},                /* CRC-16/IBM-3740, called CCITT */
    {16, 0, 0x1021, 0x0000, 0x0000, 0x31C3},                /* CRC-16/XMODEM */
    {16, 1, 0x1021, 0xFFFF, 0xFFFF, 0x906E},                /* CRC-16/IBM-SDLC, called X-25 */
    {16, 1, 0x8005, 0x0000, 0x0000, 0xBB3D},                /* CRC-16/ARC */
    {16, 1, 0x8005, 0xFFFF, 0x0000, 0x4B37},                /* CRC-16/MODBUS */
    {32, 1, 0x04C11DB7, 0xFFFFFFFF, 0xFFFFFFFF, 0xCBF43926}, /* CRC-32/ISO-HDLC, of Ethernet */
    {32, 0, 0x04C11DB7, 0xFFFFFFFF, 0xFFFFFFFF, 0xFC891918}, /* CRC-32/BZIP2 */
    {32, 1, 0x1EDC6F41, 0xFFFFFFFF, 0xFFFFFFFF, 0xE3069283}, /* CRC-32/ISCSI, called Castagnoli */
};

#define KINDS (sizeof kinds / sizeof *kinds)

static const char digits[] = "123456789";
static const char fox[] = "The quick brown fox jumps over the lazy dog";

/* ---- polynomials */

static dword mask(const struct kind *kind)
{
    return kind->width == 32 ? 0xFFFFFFFF : ((dword)1 << kind->width) - 1;
}

/* The lowest `width` bits in the other order. */
static dword mirror(dword bits, byte width)
{
    dword found = 0;
    for (; width > 0; width--, bits >>= 1)
        found = found + found + (bits & 1);
    return found;
}

/* One bit further in the division by the polynomial, for a result that goes low bit first. */
static dword low_step(dword rest, dword polynomial)
{
    return rest & 1 ? rest >> 1 ^ polynomial : rest >> 1;
}

/* The same, high bit first, with the rest at the top of 32 bits. */
static dword high_step(dword rest, dword polynomial)
{
    return rest & 0x80000000 ? rest + rest ^ polynomial : rest + rest;
}

/* ---- the running check: low bit first as it is, high bit first at the top of 32 bits */

struct running {
    const struct kind *kind;
    dword polynomial, rest;
    byte shift; /* how far a result lies from the low end */
};

static void begin(struct running *it, const struct kind *kind)
{
    it->kind = kind;
    it->shift = kind->mirrored ? 0 : 32 - kind->width;
    it->polynomial = kind->mirrored ? mirror(kind->polynomial, kind->width) : kind->polynomial << it->shift;
    it->rest = kind->mirrored ? mirror(kind->first, kind->width) : kind->first << it->shift;
}

static dword end(const struct running *it)
{
    return (it->rest >> it->shift ^ it->kind->last) & mask(it->kind);
}

/* ---- bit by bit */

static void by_bits(struct running *it, byte next)
{
    if (it->kind->mirrored) {
        it->rest ^= next;
        for (int bit = 0; bit < 8; bit++)
            it->rest = low_step(it->rest, it->polynomial);
    } else {
        it->rest ^= (dword)next << 24;
        for (int bit = 0; bit < 8; bit++)
            it->rest = high_step(it->rest, it->polynomial);
    }
}

/* ---- by tables */

static dword table[256], small_table[16];

static void fill(dword *to, word count, byte bits, const struct running *it)
{
    for (word i = 0; i < count; i++) {
        dword rest = it->kind->mirrored ? i : (dword)i << (32 - bits);
        for (byte bit = 0; bit < bits; bit++)
            rest = it->kind->mirrored ? low_step(rest, it->polynomial) : high_step(rest, it->polynomial);
        to[i] = rest;
    }
}

static void by_table(struct running *it, byte next)
{
    if (it->kind->mirrored)
        it->rest = it->rest >> 8 ^ table[(byte)it->rest ^ next];
    else
        it->rest = it->rest << 8 ^ table[(byte)(it->rest >> 24) ^ next];
}

static void by_halves(struct running *it, byte next)
{
    if (it->kind->mirrored) {
        it->rest ^= next;
        it->rest = it->rest >> 4 ^ small_table[it->rest & 15];
        it->rest = it->rest >> 4 ^ small_table[it->rest & 15];
    } else {
        it->rest ^= (dword)next << 24;
        it->rest = it->rest << 4 ^ small_table[it->rest >> 28];
        it->rest = it->rest << 4 ^ small_table[it->rest >> 28];
    }
}

typedef void (*step)(struct running *, byte);

static dword check(const struct kind *kind, step way, const char *text, word length)
{
    struct running it;
    begin(&it, kind);
    while (length--)
        way(&it, (byte)*text++);
    return end(&it);
}

/* ---- sums that are no polynomials */

static dword adler(const char *text, word length)
{
    dword low = 1, high = 0;
    while (length--) {
        low = (low + (byte)*text++) % 65521;
        high = (high + low) % 65521;
    }
    return high << 16 | low;
}

static word fletcher(const char *text, word length)
{
    word low = 0, high = 0;
    while (length--) {
        low = (low + (byte)*text++) % 255;
        high = (high + low) % 255;
    }
    return high << 8 | low;
}

/* ---- what a check is for: a burst of at most its width is always found */

static char message[sizeof fox + 3];

static int finds_bursts(const struct kind *kind)
{
    word length = sizeof fox - 1;
    dword right = check(kind, by_table, fox, length);
    for (word at = 0; at + 1 < length; at += 5)
        for (word burst = 1; burst < 0x200; burst += 0x5B) {
            memcpy(message, fox, length);
            message[at] ^= (char)burst;
            message[at + 1] ^= (char)(burst >> 8);
            if (check(kind, by_table, message, length) == right)
                return 0;
        }
    return 1;
}

/* A message with its own check behind it, low byte first, leaves one and the same rest whatever it says. */
static dword rest_of_whole(const struct kind *kind, const char *text, word length)
{
    dword value = check(kind, by_table, text, length);
    memcpy(message, text, length);
    for (byte bits = 0; bits < kind->width; bits += 8, value >>= 8)
        message[length++] = (char)value;
    return check(kind, by_table, message, length);
}

/* ---- what is told */

int main(void)
{
    word result[8] = {0};
    for (word k = 0; k < KINDS; k++) {
        struct running it;
        begin(&it, &kinds[k]);
        fill(table, 256, 8, &it);
        fill(small_table, 16, 4, &it);
        result[0] |= (word)(check(&kinds[k], by_bits, digits, 9) == kinds[k].check) << k;
        result[1] |= (word)(check(&kinds[k], by_table, digits, 9) == kinds[k].check) << k;
        result[2] |= (word)(check(&kinds[k], by_halves, digits, 9) == kinds[k].check) << k;
        if (kinds[k].width > 8)
            result[3] |= (word)finds_bursts(&kinds[k]) << k;
        if (kinds[k].mirrored)
            result[4] |= (word)(rest_of_whole(&kinds[k], digits, 9) == rest_of_whole(&kinds[k], fox, sizeof fox - 1)) << k;
        if (kinds[k].check == 0xCBF43926) {
            dword value = check(&kinds[k], by_table, fox, sizeof fox - 1);
            result[5] = value >> 16;
            result[6] = value;
        }
    }
    result[7] = (word)(adler("Wikipedia", 9) == 0x11E60398) | (word)(fletcher("abcde", 5) == 0xC8F0) << 1 |
                (word)(fletcher("abcdefgh", 8) == 0x0627) << 2;
    finish(result);
    return 0;
}
