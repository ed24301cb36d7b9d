/* What a program begins and ends with, and the functions that the compiler calls. */
#include "program.h"

__asm__(".refsym __crt0_movedata\n"
        ".text\n"
        ".globl start\n"
        "start:\n"
        "    mov #0xf000, sp\n"
        "    br #main\n"
        ".globl finish\n"
        "finish:\n"
        "    mov @r12+, r4\n"
        "    mov @r12+, r5\n"
        "    mov @r12+, r6\n"
        "    mov @r12+, r7\n"
        "    mov @r12+, r8\n"
        "    mov @r12+, r9\n"
        "    mov @r12+, r10\n"
        "    mov @r12+, r11\n"
        ".globl done\n"
        "done:\n"
        "    jmp done\n");

#include "../../examples/runtime/runtime.c"
