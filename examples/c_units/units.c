/* The unit instructions: a module tags a message, tells ids, attests, and closes itself. */
#include "sancus.h"

#define NODE_DATA 0x1100

SM_DATA(node) unsigned char message[4] = {1, 2, 3, 4};
SM_BSS(node) unsigned char tag[16];

/* Entry 0: the first byte of the message's tag. */
SM_FUNCTION(node) unsigned sign(unsigned unused)
{
    return sm_tag(message, message + 4, tag) ? tag[0] : 0;
}

/* Entry 1: its own id in the high byte, its caller's in the low one. */
SM_FUNCTION(node) unsigned ids(unsigned unused)
{
    return sm_own_id() * 256 + sm_caller_id();
}

/* Entry 2: is there, at this address, the module of which these 16 bytes are the tag? */
SM_FUNCTION(node) unsigned knows(unsigned address, const unsigned char *expected)
{
    return sm_attest(address, expected);
}

/* Entry 3. */
SM_FUNCTION(node) unsigned finish(unsigned unused)
{
    SM_CLOSE(NODE_DATA);
}

SM_START(0x0e00);

/* The text of a module that the program protects itself: it only goes back to R7. */
__asm__(".text\n.p2align 1\n.globl small\nsmall:\n\tbr r7\n.globl small_end\nsmall_end:\n");
extern char small[], small_end[];

static void send(unsigned number)
{
    SERIAL_DATA = number >> 8;
    SERIAL_DATA = number;
}

int main(void)
{
    send(SM_CALL(0x1000, 0, 0));
    send(SM_CALL(0x1000, 1, 0));
    send(SM_CALL_4(0x1000, 2, 0x1000, 0x0c00, 0, 0));
    send(sm_protect(9, (unsigned)small, (unsigned)small_end, 0x2000, 0x2010));
    send(sm_id_of((unsigned)small));
    SM_CALL(0x1000, 3, 0);
    send(sm_id_of(0x1000));
    for (;;)
        ;
}
