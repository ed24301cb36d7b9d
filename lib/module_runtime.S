; What clang calls for the MSP430, in a time that depends on no value: each loop has a fixed number of rounds, and a mask chooses.
; The time of a copy or comparison depends on its length alone. `sancus-cc --runtime` takes the blocks that its objects need, with
; those that these call. By the ABI arguments and answers lie in R12 to R15, one factor of 64 bits in R8 to R11; R4 to R10 are kept.
; `subc m, m` gives 0 after a carry and all ones after none: `bic m, t` then keeps t, or clears it.

.macro function name:req, stack:req
	.globl \name
	.type \name, @function
	.p2align 1
	.pushsection .stack_sizes,"o",@progbits,.text
	.short \name
	.uleb128 \stack
	.popsection
\name:
.endm

.macro save registers:vararg
.irp register, \registers
	push \register
.endr
.endm

.macro restore registers:vararg
.irp register, \registers
	pop \register
.endr
.endm

; One off a shift's count, down to 0; `m` is 0 where there was one.
.macro count_down count:req, m:req
	sub #1, \count
	subc \m, \m
	sub \m, \count
.endm

; Adds `from` to `to` where `m` is 0, by `op` and a spare register.
.macro masked op:req, from:req, to:req, m:req, spare:req
	mov \from, \spare
	bic \m, \spare
	\op \spare, \to
.endm

; Puts `from` into `to` where `m` is 0.
.macro choose from:req, to:req, m:req
	xor \to, \from
	bic \m, \from
	xor \from, \to
.endm

; `m` is all ones where the word is negative, else 0.
.macro sign word:req, m:req
	mov \word, \m
	add \m, \m
	subc \m, \m
	inv \m
.endm

.macro negate_if m:req, low:req
	xor \m, \low
	sub \m, \low
.endm

.macro negate_long_if m:req, low:req, high:req
	xor \m, \low
	xor \m, \high
	sub \m, \low
	subc \m, \high
.endm

	.text

; ---- shifts: by 0 where the count is 0, and as that often by one where it is more than the width

.macro shift_right_16 name:req, step:req
	function \name, 0
	mov #16, r14
1:	count_down r13, r15
	mov r12, r11
	clrc
	\step r11
	choose r11, r12, r15
	dec r14
	jnz 1b
	ret
.endm

.macro shift_right_32 name:req, step:req
	function \name, 4
	save r10, r9
	mov #32, r9
1:	count_down r14, r15
	mov r12, r10
	mov r13, r11
	clrc
	\step r11
	rrc r10
	choose r10, r12, r15
	choose r11, r13, r15
	dec r9
	jnz 1b
	restore r9, r10
	ret
.endm

; The count of a shift of 64 bits lies on the stack.
.macro shift_right_64 name:req, step:req
	function \name, 12
	save r10, r9, r8, r7, r6, r5
	mov 14(r1), r5
	mov #64, r6
1:	count_down r5, r7
	mov r12, r8
	mov r13, r9
	mov r14, r10
	mov r15, r11
	clrc
	\step r11
	rrc r10
	rrc r9
	rrc r8
	choose r8, r12, r7
	choose r9, r13, r7
	choose r10, r14, r7
	choose r11, r15, r7
	dec r6
	jnz 1b
	restore r5, r6, r7, r8, r9, r10
	ret
.endm

#ifdef NEED___mspabi_slli
	function __mspabi_slli, 0
	mov #16, r14
1:	count_down r13, r15
	masked add, r12, r12, r15, r11
	dec r14
	jnz 1b
	ret
#endif

#ifdef NEED___mspabi_srli
	shift_right_16 __mspabi_srli, rrc
#endif

#ifdef NEED___mspabi_srai
	shift_right_16 __mspabi_srai, rra
#endif

#ifdef NEED___mspabi_slll
	function __mspabi_slll, 2
	push r10
	mov #32, r10
1:	count_down r14, r15
	masked add, r12, r12, r15, r11
	masked addc, r13, r13, r15, r11
	dec r10
	jnz 1b
	pop r10
	ret
#endif

#ifdef NEED___mspabi_srll
	shift_right_32 __mspabi_srll, rrc
#endif

#ifdef NEED___mspabi_sral
	shift_right_32 __mspabi_sral, rra
#endif

#ifdef NEED___ashldi3
	function __ashldi3, 8
	save r10, r9, r8, r7
	mov 10(r1), r7
	mov #64, r8
1:	count_down r7, r9
	masked add, r12, r12, r9, r10
	masked addc, r13, r13, r9, r10
	masked addc, r14, r14, r9, r10
	masked addc, r15, r15, r9, r10
	dec r8
	jnz 1b
	restore r7, r8, r9, r10
	ret
#endif

#ifdef NEED___lshrdi3
	shift_right_64 __lshrdi3, rrc
#endif

#ifdef NEED___ashrdi3
	shift_right_64 __ashrdi3, rra
#endif

; ---- products

#ifdef NEED___mspabi_mpyi
	function __mspabi_mpyi, 2
	push r10
	clr r14
	mov #16, r10
1:	clrc
	rrc r13
	subc r15, r15
	masked add, r12, r14, r15, r11
	add r12, r12
	dec r10
	jnz 1b
	mov r14, r12
	pop r10
	ret
#endif

#ifdef NEED___mspabi_mpyl
	function __mspabi_mpyl, 8
	save r10, r9, r8, r7
	clr r9
	clr r10
	mov #32, r8
1:	clrc
	rrc r15
	rrc r14
	subc r7, r7
	masked add, r12, r9, r7, r11
	masked addc, r13, r10, r7, r11
	add r12, r12
	addc r13, r13
	dec r8
	jnz 1b
	mov r9, r12
	mov r10, r13
	restore r7, r8, r9, r10
	ret
#endif

; The factor in R8 to R11 is shifted down on the stack.
#ifdef NEED___mspabi_mpyll
	function __mspabi_mpyll, 22
	save r10, r9, r8, r7, r6, r5, r4, r11, r10, r9, r8
	clr r4
	clr r5
	clr r6
	clr r7
	mov #64, r10
1:	clrc
	rrc 6(r1)
	rrc 4(r1)
	rrc 2(r1)
	rrc 0(r1)
	subc r8, r8
	masked add, r12, r4, r8, r9
	masked addc, r13, r5, r8, r9
	masked addc, r14, r6, r8, r9
	masked addc, r15, r7, r8, r9
	add r12, r12
	addc r13, r13
	addc r14, r14
	addc r15, r15
	dec r10
	jnz 1b
	mov r4, r12
	mov r5, r13
	mov r6, r14
	mov r7, r15
	add #8, r1
	restore r4, r5, r6, r7, r8, r9, r10
	ret
#endif

; ---- quotients and rests: R12 by R13 gives the quotient in R12 and the rest in R14

#ifdef NEED_divide_word
	function divide_word, 4
	save r10, r9
	clr r14
	mov #16, r9
1:	add r12, r12
	addc r14, r14
	subc r15, r15
	mov r14, r11
	sub r13, r11
	subc r10, r10
	and r15, r10
	choose r11, r14, r10
	inc r12
	add r10, r12
	dec r9
	jnz 1b
	restore r9, r10
	ret
#endif

#ifdef NEED___mspabi_divu
	function __mspabi_divu, 0
	br #divide_word
#endif

#ifdef NEED___mspabi_remu
	function __mspabi_remu, 0
	call #divide_word
	mov r14, r12
	ret
#endif

#ifdef NEED_divide_signed_word
	function divide_signed_word, 4
	save r10, r9
	sign r12, r10
	sign r13, r9
	negate_if r10, r12
	negate_if r9, r13
	xor r10, r9
	call #divide_word
	negate_if r10, r14
	negate_if r9, r12
	restore r9, r10
	ret
#endif

#ifdef NEED___mspabi_divi
	function __mspabi_divi, 0
	br #divide_signed_word
#endif

#ifdef NEED___mspabi_remi
	function __mspabi_remi, 0
	call #divide_signed_word
	mov r14, r12
	ret
#endif

; R12 and R13 by R14 and R15 gives the quotient in R12 and R13, the rest in R14 and R15.
#ifdef NEED_divide_long
	function divide_long, 12
	save r10, r9, r8, r7, r6, r5
	clr r9
	clr r10
	mov #32, r5
1:	add r12, r12
	addc r13, r13
	addc r9, r9
	addc r10, r10
	subc r8, r8
	mov r9, r7
	mov r10, r6
	sub r14, r7
	subc r15, r6
	subc r11, r11
	and r8, r11
	choose r7, r9, r11
	choose r6, r10, r11
	inc r12
	add r11, r12
	dec r5
	jnz 1b
	mov r9, r14
	mov r10, r15
	restore r5, r6, r7, r8, r9, r10
	ret
#endif

#ifdef NEED___mspabi_divul
	function __mspabi_divul, 0
	br #divide_long
#endif

#ifdef NEED___mspabi_remul
	function __mspabi_remul, 0
	call #divide_long
	mov r14, r12
	mov r15, r13
	ret
#endif

#ifdef NEED_divide_signed_long
	function divide_signed_long, 4
	save r10, r9
	sign r13, r10
	sign r15, r9
	negate_long_if r10, r12, r13
	negate_long_if r9, r14, r15
	xor r10, r9
	call #divide_long
	negate_long_if r10, r14, r15
	negate_long_if r9, r12, r13
	restore r9, r10
	ret
#endif

#ifdef NEED___mspabi_divli
	function __mspabi_divli, 0
	br #divide_signed_long
#endif

#ifdef NEED___mspabi_remli
	function __mspabi_remli, 0
	call #divide_signed_long
	mov r14, r12
	mov r15, r13
	ret
#endif

; ---- memory: the time depends on the length in R14

#ifdef NEED_memset
	function memset, 0
	mov r12, r15
1:	tst r14
	jz 2f
	mov.b r13, 0(r15)
	inc r15
	dec r14
	jmp 1b
2:	ret
#endif

#ifdef NEED_memcpy
	function memcpy, 0
	mov r12, r15
1:	tst r14
	jz 2f
	mov.b @r13, 0(r15)
	inc r13
	inc r15
	dec r14
	jmp 1b
2:	ret
#endif

; From the end where `to` lies above `from`; both ways take the same time for the same places and length.
#ifdef NEED_memmove
	function memmove, 0
	cmp r12, r13
	jhs 3f
	add r14, r12
	add r14, r13
1:	tst r14
	jz 2f
	dec r12
	dec r13
	mov.b @r13, 0(r12)
	dec r14
	jmp 1b
2:	ret
3:	br #memcpy
#endif

; The difference of the first pair of bytes that differ: all pairs are read.
#ifdef NEED_memcmp
	function memcmp, 8
	save r10, r9, r8, r7
	clr r15
	mov #-1, r7
1:	tst r14
	jz 2f
	mov.b @r12+, r11
	mov.b @r13+, r10
	sub r10, r11
	mov r11, r9
	and r7, r9
	bis r9, r15
	cmp #1, r11
	subc r8, r8
	and r8, r7
	dec r14
	jmp 1b
2:	mov r15, r12
	restore r7, r8, r9, r10
	ret
#endif

; 0 where all bytes are equal, else another number.
#ifdef NEED_memcmp_ct
	function memcmp_ct, 2
	push r10
	clr r15
1:	tst r14
	jz 2f
	mov.b @r12+, r11
	xor.b @r13+, r11
	bis r11, r15
	dec r14
	jmp 1b
2:	mov r15, r12
	pop r10
	ret
#endif

#ifdef NEED_strlen
	function strlen, 0
	mov r12, r13
1:	mov.b @r13+, r14
	tst r14
	jnz 1b
	dec r13
	sub r12, r13
	mov r13, r12
	ret
#endif
