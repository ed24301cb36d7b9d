/* A module that proves to its vendor that it runs on the vendor's node: it tags a challenge under its own key. */
#include "vault.h"
#include "sancus.h"

static volatile unsigned char message[16], tag[16];

unsigned challenge(unsigned byte)
{
#pragma unroll
    for (unsigned k = 0; k < 15; k++)
        message[k] = message[k + 1];
    message[15] = byte;
    return 0;
}

unsigned prove(void)
{
    return sm_tag(message, message + 16, tag);
}

unsigned tag_byte(void)
{
    unsigned byte = tag[0];
#pragma unroll
    for (unsigned k = 0; k < 15; k++)
        tag[k] = tag[k + 1];
    return byte;
}
