/* Sets the stack, goes to main, and ends in a jump to itself. */
__asm__(".refsym __crt0_movedata\n"
        ".text\n"
        ".globl start\n"
        "start:\n"
        "    mov #0xf000, r1\n"
        "    br #main\n"
        ".globl finish\n"
        "finish:\n"
        "    mov r12, r4\n"
        ".globl done\n"
        "done:\n"
        "    jmp done\n");

#include "../../examples/runtime/runtime.c"
