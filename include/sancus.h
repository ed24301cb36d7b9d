/* Modules, devices and unit instructions, for clang --target=msp430. examples/c/README.md shows how to use them. */
#ifndef SANCUS_H
#define SANCUS_H

/* ---- the parts of a module NAME of the layout */

/* A function of the module. The attributes keep a compiler from moving its code elsewhere, or dropping it. */
#define SM_FUNCTION(name) __attribute__((section(".sm." #name ".text"), noinline, used))
/* Data, and data that begin as zeros. Volatile, so that no value is folded into the text, which everyone may read. */
#define SM_DATA(name) __attribute__((section(".sm." #name ".data"))) static volatile
#define SM_BSS(name) __attribute__((section(".sm." #name ".bss"))) static volatile

/* The value, of which the compiler knows nothing more: it makes no branch of a mask that has gone through here. */
#define SM_VALUE_BARRIER(value)          \
    ({                                   \
        __typeof__(value) sm_v = (value); \
        __asm__("" : "+r"(sm_v));        \
        sm_v;                            \
    })

/* ---- devices */

#define BYTE_AT(address) (*(volatile unsigned char *)(address))
#define WORD_AT(address) (*(volatile unsigned *)(address))

#define LINE_ENABLE BYTE_AT(0x0040) /* bit N: line N raises vector N + 1 while it is up */
#define LINE_LEVELS BYTE_AT(0x0041)
#define SERIAL_CONTROL BYTE_AT(0x0070) /* SERIAL_INTERRUPTS may be written; the other two are told */
#define SERIAL_INTERRUPTS 1            /* an unread byte raises vector 6 */
#define SERIAL_RECEIVED 2
#define SERIAL_OVERRUN 4
#define SERIAL_DATA BYTE_AT(0x0071) /* read: the byte that came; write: send a byte */
#define TIMER_CONTROL BYTE_AT(0x0160)
#define TIMER_RUNS 1
#define TIMER_INTERRUPTS 2 /* the flag raises vector 8 */
#define TIMER_FLAG 4       /* the count came to the limit; acceptance of vector 8 clears it */
#define TIMER_COUNT WORD_AT(0x0162)
#define TIMER_LIMIT WORD_AT(0x0164)

#define ENABLE_INTERRUPTS() __asm__ volatile("bis #8, r2" : : : "memory")
#define DISABLE_INTERRUPTS() __asm__ volatile("bic #8, r2" : : : "memory")

/* ---- outside modules */

/* What the reset vector names: `start` sets the stack and goes to main. */
#define SM_START(stack) __asm__(".text\n.globl start\nstart:\n\tmov #" #stack ", r1\n\tbr #main\n")

/* `push` and `pop` change where the call frame lies: from clang 19 on debuggers are told. */
#if defined(__GCC_HAVE_DWARF2_CFI_ASM) && __clang_major__ >= 19
#define SM_CFI(bytes) "\n\t.cfi_adjust_cfa_offset " #bytes
#else
#define SM_CFI(bytes)
#endif
/* sancus-cc notes the place of each call, to refuse one inside a module. */
#ifdef SANCUS_CC
#define SM_NOTE ".pushsection .sancus.calls,\"\",@progbits\n\t.short .Lback%=\n\t.popsection\n\t"
#else
#define SM_NOTE
#endif

/* Calls entry NUMBER of the module whose text starts at TEXT, both constants. The answer is the value. */
#define SM_CALL(text, number, argument) SM_CALL_4(text, number, argument, 0, 0, 0)
#define SM_CALL_4(text, number, first, second, third, fourth)                                                     \
    ({                                                                                                            \
        register unsigned sm_r12 __asm__("r12") = (first);                                                        \
        register unsigned sm_r13 __asm__("r13") = (second);                                                       \
        register unsigned sm_r14 __asm__("r14") = (third);                                                        \
        register unsigned sm_r15 __asm__("r15") = (fourth);                                                       \
        __asm__ volatile(SM_NOTE "push r4" SM_CFI(2) "\n\tmov %5, r6\n\tmov #.Lback%=, r7\n\tbr %4\n.Lback%=:\n\t" \
                                 "pop r4" SM_CFI(-2)                                                              \
                         : "+r"(sm_r12), "+r"(sm_r13), "+r"(sm_r14), "+r"(sm_r15)                                 \
                         : "i"(text), "i"(number)                                                                 \
                         : "r5", "r6", "r7", "r8", "r9", "r10", "r11", "memory");                                 \
        sm_r12;                                                                                                   \
    })

/* The call of an entry by the type of its prototype, with up to four arguments of a word: `sancus-cc --header` names it. */
#define SM_CALL_ENTRY(text, number, function, ...) \
    ((__typeof__(function(__VA_ARGS__)))SM_WORDS(text, number, ##__VA_ARGS__, 0, 0, 0, 0))
#define SM_WORDS(text, number, first, second, third, fourth, ...) \
    SM_CALL_4(text, number, SM_WORD(first), SM_WORD(second), SM_WORD(third), SM_WORD(fourth))
#define SM_WORD(value)                                                               \
    ({                                                                               \
        _Static_assert(sizeof(value) <= 2, "an argument of an entry is one word");   \
        (unsigned)(value);                                                           \
    })

/* ---- inside a module whose data start at DATA: what the code at its entry keeps there of the call */

#define SM_CALLER_STACK(data) WORD_AT(data)
#define SM_RETURN_ADDRESS(data) WORD_AT((data) + 2)

/* Leaves for entry NUMBER of another module. Its answer comes to the entry 0 of this one, whose text starts at BACK. */
#define SM_LEAVE_FOR(text, number, argument, back)                            \
    do {                                                                      \
        register unsigned sm_r12 __asm__("r12") = (argument);                 \
        __asm__ volatile("mov %2, r6\n\tmov %3, r7\n" SM_CLEAR "\n\tbr %1"    \
                         :                                                    \
                         : "r"(sm_r12), "i"(text), "i"(number), "i"(back)     \
                         : "memory");                                         \
        __builtin_unreachable();                                              \
    } while (0)

/* Closes the module and goes back to its caller with 0. The stack lies in the data, so it is left before they go. */
#define SM_CLOSE(data)                                                                                 \
    do {                                                                                               \
        __asm__ volatile("mov &%c0, r1\n\tmov &%c0+2, r7\n\t.word 0x1380\n\tmov #0, r6\n" SM_CLEAR     \
                         "\n\tmov #0, r12\n\tbr r7"                                                    \
                         :                                                                             \
                         : "i"(data)                                                                   \
                         : "memory");                                                                  \
        __builtin_unreachable();                                                                       \
    } while (0)

/* All registers but PC, SP, R6, R7 and R12, and the flags. */
#define SM_CLEAR                                                                                       \
    "\tmov #0, r4\n\tmov #0, r5\n\tmov #0, r8\n\tmov #0, r9\n\tmov #0, r10\n\tmov #0, r11\n"           \
    "\tmov #0, r13\n\tmov #0, r14\n\tmov #0, r15\n\tbic #0x0107, r2"

/* ---- unit instructions */

#define SM_INLINE static inline __attribute__((always_inline)) unsigned
#define SM_IN(name, place, value) register unsigned name __asm__(place) = (unsigned)(value)

/* Protects a module: its id, or 0 where the table does not take it. */
SM_INLINE sm_protect(unsigned vendor, unsigned text, unsigned text_end, unsigned data, unsigned data_end)
{
    SM_IN(r11, "r11", vendor);
    SM_IN(r12, "r12", text);
    SM_IN(r13, "r13", text_end);
    SM_IN(r14, "r14", data);
    SM_IN(r15, "r15", data_end);
    __asm__ volatile(".word 0x1381" : "+r"(r15) : "r"(r11), "r"(r12), "r"(r13), "r"(r14) : "memory");
    return r15;
}

/* The id of the module whose text holds ADDRESS where the 16 bytes at TAG are the tag of its identity, else 0. */
SM_INLINE sm_attest(unsigned address, const volatile void *tag)
{
    SM_IN(r12, "r12", address);
    SM_IN(r13, "r13", tag);
    register unsigned r15 __asm__("r15");
    __asm__ volatile(".word 0x1382" : "=r"(r15) : "r"(r12), "r"(r13) : "memory");
    return r15;
}

/* Tags the bytes from START up to END under the module's key, 16 bytes at TAG: 1, or 0 where it could not. */
SM_INLINE sm_tag(const volatile void *start, const volatile void *end, volatile void *tag)
{
    SM_IN(r12, "r12", start);
    SM_IN(r13, "r13", end);
    SM_IN(r14, "r14", tag);
    register unsigned r15 __asm__("r15");
    __asm__ volatile(".word 0x1383" : "=r"(r15) : "r"(r12), "r"(r13), "r"(r14) : "memory");
    return r15;
}

/* The id of the module in whose sections ADDRESS lies, or 0. */
SM_INLINE sm_id_of(unsigned address)
{
    SM_IN(r12, "r12", address);
    register unsigned r15 __asm__("r15");
    __asm__ volatile(".word 0x1384" : "=r"(r15) : "r"(r12));
    return r15;
}

/* The module's own id, and that of the module that called it: 0 outside. */
SM_INLINE sm_own_id(void)
{
    register unsigned r15 __asm__("r15");
    __asm__ volatile(".word 0x1385" : "=r"(r15));
    return r15;
}

SM_INLINE sm_caller_id(void)
{
    register unsigned r15 __asm__("r15");
    __asm__ volatile(".word 0x1386" : "=r"(r15));
    return r15;
}

#endif
