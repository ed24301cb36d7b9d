/* The functions that clang calls for the MSP430: products and quotients of 16 and 32 bits, shifts of 32 bits, memset
 * and memcpy. Their time depends on the values, so none is fit for a secret; a module's code has no calls of them. */

typedef unsigned char byte;
typedef unsigned int word;
typedef unsigned long dword;

/* Not optimised, or the compiler would make of the loops calls of these very functions. */
#define PLAIN __attribute__((optnone))

PLAIN void *memset(void *to, int value, unsigned count)
{
    byte *at = to;
    while (count--)
        *at++ = (byte)value;
    return to;
}

PLAIN void *memcpy(void *to, const void *from, unsigned count)
{
    byte *at = to;
    const byte *source = from;
    while (count--)
        *at++ = *source++;
    return to;
}

/* ---- shifts of 32 bits */

PLAIN dword __mspabi_slll(dword value, int by)
{
    while (by-- > 0)
        value += value;
    return value;
}

PLAIN dword __mspabi_srll(dword value, int by)
{
    while (by-- > 0)
        value >>= 1;
    return value;
}

PLAIN long __mspabi_sral(long value, int by)
{
    while (by-- > 0)
        value >>= 1;
    return value;
}

/* ---- products */

PLAIN word __mspabi_mpyi(word left, word right)
{
    word product = 0;
    for (; right; right >>= 1, left += left)
        if (right & 1)
            product += left;
    return product;
}

PLAIN dword __mspabi_mpyl(dword left, dword right)
{
    dword product = 0;
    for (; right; right >>= 1, left += left)
        if (right & 1)
            product += left;
    return product;
}

/* ---- quotients and rests */

struct quotient {
    dword quotient, rest;
};

static PLAIN void divide(dword above, dword below, struct quotient *found)
{
    dword quotient = 0, rest = 0;
    for (int bit = 0; bit < 32; bit++) {
        byte carry = rest >> 31 != 0;
        rest += rest;
        if (above >> 31)
            rest++;
        above += above;
        quotient += quotient;
        if (carry || rest >= below) {
            rest -= below;
            quotient++;
        }
    }
    found->quotient = quotient;
    found->rest = rest;
}

PLAIN dword __mspabi_divul(dword above, dword below)
{
    struct quotient found;
    divide(above, below, &found);
    return found.quotient;
}

PLAIN dword __mspabi_remul(dword above, dword below)
{
    struct quotient found;
    divide(above, below, &found);
    return found.rest;
}

PLAIN long __mspabi_divli(long above, long below)
{
    dword size = __mspabi_divul(above < 0 ? -(dword)above : (dword)above, below < 0 ? -(dword)below : (dword)below);
    return (above ^ below) < 0 ? -(long)size : (long)size;
}

PLAIN long __mspabi_remli(long above, long below)
{
    dword size = __mspabi_remul(above < 0 ? -(dword)above : (dword)above, below < 0 ? -(dword)below : (dword)below);
    return above < 0 ? -(long)size : (long)size;
}

PLAIN word __mspabi_divu(word above, word below)
{
    return (word)__mspabi_divul(above, below);
}

PLAIN word __mspabi_remu(word above, word below)
{
    return (word)__mspabi_remul(above, below);
}

PLAIN int __mspabi_divi(int above, int below)
{
    return (int)__mspabi_divli(above, below);
}

PLAIN int __mspabi_remi(int above, int below)
{
    return (int)__mspabi_remli(above, below);
}
