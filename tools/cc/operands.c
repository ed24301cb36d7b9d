/* Every helper of the runtime on drawn operands: a sum of its answers, and how often its time was another than at first. */
#include "sancus.h"

#ifndef ROUNDS
#define ROUNDS 5000
#endif

typedef unsigned long dword;
typedef unsigned long long qword;
unsigned __mspabi_slli(unsigned value, unsigned by), __mspabi_srli(unsigned value, unsigned by);
int __mspabi_srai(int value, unsigned by);
dword __mspabi_slll(dword value, unsigned by), __mspabi_srll(dword value, unsigned by);
long __mspabi_sral(long value, unsigned by);
qword __ashldi3(qword value, int by), __lshrdi3(qword value, int by);
long long __ashrdi3(long long value, int by);

static volatile qword x, y, z;

#define OPERATION(name, answer)                              \
    __attribute__((noinline)) static void name(void)         \
    {                                                        \
        z = (qword)(answer);                                 \
    }
OPERATION(mpyi, (unsigned)x * (unsigned)y)
OPERATION(mpyl, (dword)x * (dword)y)
OPERATION(mpyll, x * y)
OPERATION(divu, (unsigned)x / (unsigned)y)
OPERATION(remu, (unsigned)x % (unsigned)y)
OPERATION(divi, (unsigned)((int)x / (int)y))
OPERATION(remi, (unsigned)((int)x % (int)y))
OPERATION(divul, (dword)x / (dword)y)
OPERATION(remul, (dword)x % (dword)y)
OPERATION(divli, (dword)((long)x / (long)y))
OPERATION(remli, (dword)((long)x % (long)y))
OPERATION(slli, __mspabi_slli((unsigned)x, (unsigned)y & 15))
OPERATION(srli, __mspabi_srli((unsigned)x, (unsigned)y & 15))
OPERATION(srai, (unsigned)__mspabi_srai((int)x, (unsigned)y & 15))
OPERATION(slll, __mspabi_slll((dword)x, (unsigned)y & 31))
OPERATION(srll, __mspabi_srll((dword)x, (unsigned)y & 31))
OPERATION(sral, (dword)__mspabi_sral((long)x, (unsigned)y & 31))
OPERATION(sllll, __ashldi3(x, (unsigned)y & 63))
OPERATION(srlll, __lshrdi3(x, (unsigned)y & 63))
OPERATION(srall, (qword)__ashrdi3((long long)x, (unsigned)y & 63))

static void (*const operations[])(void) = {mpyi,  mpyl,  mpyll, divu, remu, divi, remi, divul, remul, divli,
                                           remli, slli,  srli,  srai, slll, srll, sral, sllll, srlll, srall};
#define COUNT (sizeof operations / sizeof *operations)

static unsigned state = 1, weyl;

static unsigned draw(void)
{
    state ^= state << 7;
    state ^= state >> 9;
    state ^= state << 8;
    weyl += 0x9e37;
    return state + weyl;
}

/* Four words; each second operand has words of zeros and ones in it. */
static qword operand(unsigned kind)
{
    union {
        unsigned word[4];
        qword value;
    } drawn;
    for (unsigned k = 0; k < 4; k++) {
        drawn.word[k] = draw();
        if (kind & 1)
            drawn.word[k] = drawn.word[k] & 0x100 ? -(drawn.word[k] & 1) : drawn.word[k] & 0xff;
    }
    return drawn.value;
}

static void send(unsigned word)
{
    SERIAL_DATA = word & 0xff;
    SERIAL_DATA = word >> 8;
}

SM_START(0xf000);

int main(void)
{
    static unsigned sums[COUNT], times[COUNT], others[COUNT];
    TIMER_LIMIT = 0xffff;
    TIMER_CONTROL = TIMER_RUNS;
    for (unsigned round = 0; round < ROUNDS; round++) {
        x = operand(round);
        y = operand(round >> 1);
        if (!(unsigned)y)
            y += 3;
        for (unsigned k = 0; k < COUNT; k++) {
            unsigned start = TIMER_COUNT;
            operations[k]();
            unsigned took = TIMER_COUNT - start;
            qword answer = z;
            for (unsigned word = 0; word < 4; word++) {
                sums[k] = (sums[k] << 1 | sums[k] >> 15) + (unsigned)answer;
                answer >>= 16;
            }
            if (!round)
                times[k] = took;
            others[k] += took != times[k];
        }
    }
    for (unsigned k = 0; k < COUNT; k++) {
        send(sums[k]);
        send(others[k]);
        send(times[k]);
    }
    __asm__ volatile("mov #0, r1\n\tmov @r1, r0");
    for (;;)
        ;
}
