/* A module that keeps a number to itself, as its author believes, and a program that reads it from the module's text. */

#define SERIAL_DATA (*(volatile unsigned char *)0x0071)

/* In the module's data, where nobody else may read; but nothing changes it, so the compiler takes the value and needs no data. */
__attribute__((section(".sm.lock.data"))) static unsigned pin = 0x1234;

/* The same number where the compiler may not look. */
__attribute__((section(".sm.lock.data"))) static volatile unsigned kept_pin = 0x1234;

__attribute__((section(".sm.lock.text"))) unsigned open_lock(unsigned guess)
{
    return guess == pin;
}

__attribute__((section(".sm.lock.text"))) unsigned open_kept(unsigned guess)
{
    return guess == kept_pin;
}

__asm__(".refsym __crt0_movedata\n"
        ".text\n"
        ".globl start\n"
        "start:\n"
        "    mov #0x0e00, sp\n"
        "    br #main\n");

/* Sends the word of a compare instruction's immediate operand, wherever it stands in the module's text. */
int main(void)
{
    const unsigned *at = (const unsigned *)0x104e;
    while (*at++ != 0x903c)
        ;
    SERIAL_DATA = *at >> 8;
    SERIAL_DATA = *at & 0xff;
    for (;;)
        ;
}
