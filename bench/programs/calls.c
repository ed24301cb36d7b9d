/* Calls with stack frames: Fibonacci's numbers and Ackermann's function by recursion, and the eight queens. */
#include "program.h"

#define TIMES 9

static word fibonacci(word n)
{
    return n < 2 ? n : fibonacci(n - 1) + fibonacci(n - 2);
}

static word ackermann(word m, word n)
{
    if (!m)
        return n + 1;
    return ackermann(m - 1, n ? ackermann(m, n - 1) : 1);
}

static word queens(word columns, word rising, word falling)
{
    word found = 0, free = ~(columns | rising | falling) & 255;
    if (columns == 255)
        return 1;
    while (free) {
        word one = free & (0u - free);
        free ^= one;
        found += queens(columns | one, (rising | one) << 1, (falling | one) >> 1);
    }
    return found;
}

int main(void)
{
    word wrong = 0;
    for (word n = 0; n < TIMES; n++) {
        wrong += fibonacci(20) != 6765;
        wrong += ackermann(2, 60) != 123;
        wrong += queens(0, 0, 0) != 92;
    }
    finish(wrong);
}
