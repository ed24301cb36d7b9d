/* Handlers in C: of line 0, of the serial device and of the timer; a module that is interrupted while they work. */
#include "sancus.h"

SM_BSS(vault) unsigned sum;

SM_FUNCTION(vault) unsigned add(unsigned number)
{
    for (unsigned turn = 0; turn < 8; turn++)
        sum += number;
    return 0;
}

static volatile unsigned ticks;

__attribute__((interrupt(1))) void line(void)
{
    SERIAL_DATA = 'L';
    LINE_ENABLE = 0;
}

/* Reading the byte takes it, so the vector falls. */
__attribute__((interrupt(6))) void serial(void)
{
    SERIAL_DATA = SERIAL_DATA + 1;
}

__attribute__((interrupt(8))) void timer(void)
{
    ticks++;
    SERIAL_DATA = 'T';
}

SM_START(0x0e00);

int main(void)
{
    TIMER_LIMIT = 299;
    TIMER_CONTROL = TIMER_RUNS | TIMER_INTERRUPTS;
    SERIAL_CONTROL = SERIAL_INTERRUPTS;
    LINE_ENABLE = 1;
    ENABLE_INTERRUPTS();
    SM_CALL(0x1000, 0, 5);
    while (ticks < 2)
        ;
    DISABLE_INTERRUPTS();
    SERIAL_DATA = '.';
    for (;;)
        ;
}
