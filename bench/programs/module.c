/* A module that is called again and again, and interrupted by the timer while it works: a running sum of squares. */
#include "../../include/sancus.h"
#include "program.h"

#define TIMES 4000

SM_DATA(squares) word total = 0;

SM_FUNCTION(squares) word add(word number)
{
    for (byte k = 0; k < 16; k++) {
        word product = 0;
        for (word factor = number, shift = number; factor; factor >>= 1, shift <<= 1)
            if (factor & 1)
                product += shift;
        total += product;
        number++;
    }
    return total;
}

static volatile word ticks;

__attribute__((used)) static void tick(void)
{
    TIMER_CONTROL = TIMER_RUNS | TIMER_INTERRUPTS;
    ticks++;
}

__asm__(".text\n.globl handler\nhandler:\n\tpush r12\n\tpush r13\n\tpush r14\n\tpush r15\n\tcall #tick\n"
        "\tpop r15\n\tpop r14\n\tpop r13\n\tpop r12\n\treti\n");

int main(void)
{
    word wrong = 0, expected = 0;
    TIMER_LIMIT = 5000;
    TIMER_CONTROL = TIMER_RUNS | TIMER_INTERRUPTS;
    ENABLE_INTERRUPTS();
    for (word n = 0; n < TIMES; n++) {
        word number = n & 63;
        for (byte k = 0; k < 16; k++, number++)
            expected += number * number;
        if (SM_CALL(0x1000, 0, n & 63) != expected)
            wrong++;
    }
    DISABLE_INTERRUPTS();
    finish(ticks < 100 ? wrong + 1 : wrong);
}
