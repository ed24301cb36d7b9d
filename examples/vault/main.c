/* The outside: bytes come by interrupts. It hands the first sixteen to the prover as a challenge and sends the tag, and it sends
 * each byte after these sealed. */
#include "vault.h"
#include "layout.h"

static volatile unsigned char waiting[256];
static volatile unsigned char first, last;

__attribute__((interrupt(6))) void serial(void)
{
    waiting[last++] = SERIAL_DATA;
}

static unsigned next(void)
{
    while (first == last)
        ;
    return waiting[first++];
}

SM_START(0x0f00);

int main(void)
{
    SERIAL_CONTROL = SERIAL_INTERRUPTS;
    ENABLE_INTERRUPTS();
    for (unsigned k = 0; k < 16; k++)
        prover_challenge(next());
    prover_prove();
    for (unsigned k = 0; k < 16; k++)
        SERIAL_DATA = prover_tag_byte();
    for (;;)
        SERIAL_DATA = vault_seal(next());
}
