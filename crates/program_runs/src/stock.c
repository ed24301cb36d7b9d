/* A program of two modules, with the timer and the serial device. */

#define BYTE(at) (*(volatile unsigned char *)(at))
#define WORD(at) (*(volatile unsigned *)(at))

#define SERIAL_DATA BYTE(0x0071)
#define TIMER_CONTROL WORD(0x0160)
#define TIMER_LIMIT WORD(0x0164)
#define TIMER_RUN 1
#define TIMER_ENABLE 2

/* Module `adder`: a sum that nobody else sees. */
__attribute__((section(".sm.adder.data"))) static unsigned sum = 0x0100;

__attribute__((section(".sm.adder.text"))) unsigned add(unsigned number)
{
    sum += number;
    return sum;
}

/* Module `mixer`: how often it was called. */
__attribute__((section(".sm.mixer.bss"))) static unsigned calls;

__attribute__((section(".sm.mixer.text"))) unsigned mix(unsigned number)
{
    calls++;
    return number ^ calls;
}

/* The calls of the modules: R6 is the entry, R7 where to come back to. A module clears what is not its answer. */
unsigned call_adder(unsigned number);
unsigned call_mixer(unsigned number);

__asm__(".refsym __crt0_movedata\n"
        ".text\n"
        ".globl call_adder\n"
        "call_adder:\n"
        "    mov #0x1000, r14\n"
        "    jmp enter\n"
        ".globl call_mixer\n"
        "call_mixer:\n"
        "    mov #0x1200, r14\n"
        "enter:\n"
        "    push r4\n"
        "    push r5\n"
        "    push r6\n"
        "    push r7\n"
        "    push r8\n"
        "    push r9\n"
        "    push r10\n"
        "    clr r6\n"
        "    mov #back, r7\n"
        "    br r14\n"
        "back:\n"
        "    pop r10\n"
        "    pop r9\n"
        "    pop r8\n"
        "    pop r7\n"
        "    pop r6\n"
        "    pop r5\n"
        "    pop r4\n"
        "    ret\n"
        ".globl start\n"
        "start:\n"
        "    mov #0x0e00, sp\n"
        "    br #main\n");

static const char digits[] = "0123456789abcdef";
unsigned rounds = 3;
static volatile unsigned ticks;

__attribute__((interrupt(8))) void tick(void)
{
    ticks++;
}

static void send(unsigned word)
{
    for (int shift = 12; shift >= 0; shift -= 4)
        SERIAL_DATA = digits[(word >> shift) & 15];
    SERIAL_DATA = '\n';
}

int main(void)
{
    TIMER_LIMIT = 20000;
    TIMER_CONTROL = TIMER_RUN | TIMER_ENABLE;
    __asm__ volatile("eint");
    for (unsigned last = 0;;) {
        if (ticks == last)
            continue;
        last = ticks;
        for (unsigned round = 0; round < rounds; round++)
            send(call_mixer(call_adder(last)));
    }
}
