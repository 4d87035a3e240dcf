/* What frames.awk must count or refuse, each by its name: assembled with one of them defined, and never run. host/test says what is expected. */
	.macro function name
	.section .text.\name, "ax", @progbits
	.globl \name
\name:
	.endm

	function callee
	push %rbx
	pop %rbx
	ret

#ifdef SCRATCH_FOR_A_BLOCK
	function call
	sub $504, %rsp
	call callee
	add $504, %rsp
	ret
#endif

#ifdef SCRATCH_FOR_THE_RECORD
	function call
	push %rbp
	mov %rsp, %rbp
	sub %rdi, %rsp
	mov %rbp, %rsp
	pop %rbp
	ret
#endif

#ifdef RECURSION
	function call
	push %rbx
	call other
	pop %rbx
	ret
	function other
	push %rbx
	call call
	pop %rbx
	ret
#endif

#ifdef POINTER
	function call
	push %rbx
	call *%rdi
	pop %rbx
	ret
#endif

#ifdef POINTER_AT_THE_END
	function call
	jmp *%rdi
#endif

#ifdef ANOTHER_LIBRARY
	function call
	jmp memcpy
#endif

#ifdef ADDRESS_TAKEN
	function call
	lea callee(%rip), %rax
	ret
#endif

#ifdef ADDRESS_IN_DATA
	function call
	ret
	.section .data.rel.ro, "aw"
	.quad callee
#endif

#ifdef PAST_THE_END
	function call
	nop
#endif

#ifdef NOT_REACHED
	function call
	ret
	push %rbx
	pop %rbx
	ret
#endif

#ifdef LEFT_THERE
	function call
	push %rbx
	ret
#endif

#ifdef TWO_DEPTHS
	function call
	test %rdi, %rdi
	je 1f
	push %rbx
1:	ret
#endif

#ifdef TAIL
	function call
	test %rdi, %rdi
	jne callee
	ret
#endif

#ifdef LOOP
	function call
1:	loop 1b
	ret
#endif

#ifdef BELOW_THE_POINTER
	function call
	mov %rdi, -100(%rsp)
	ret
#endif

#ifdef BELOW_BY_ADDRESS
	function call
	sub $112, %rsp
	lea 112(%rsp), %rax
	mov %rdi, -200(%rax)
	add $112, %rsp
	ret
#endif

#ifdef BELOW_AND_CALLS
	function call
	push %rbx
	mov %rdi, -16(%rsp)
	call callee
	pop %rbx
	ret
#endif

/* Two tables, so that the second one's words count from its own beginning. */
	.macro jump_by table
	lea \table(%rip), %rcx
	movslq (%rcx,%rdi,4), %rax
	add %rcx, %rax
	.endm

#ifdef TABLES
	function call
	sub $40, %rsp
	jump_by table
	mov %rsi, %rdi
	jmp *%rax
1:	add $40, %rsp
	ret
2:	jump_by table_2
	mov %rdi, 8(%rsp)
	movzbl 16(%rsp), %edx
	jmp *%rax
3:	call callee
	jmp 1b
	.section .rodata.call, "a"
table:	.long 1b - table, 2b - table
table_2: .long 3b - table_2, 1b - table_2
#endif

#ifdef POINTER_BEHIND_A_TABLE
	function call
	jump_by table
	jmp *%rax
1:	mov (%rdx), %rax
	test %rax, %rax
	je 2f
	jmp *%rax
2:	ret
	.section .rodata.call, "a"
table:	.long 1b - table, 2b - table
#endif

#ifdef POINTER_INTO_A_TABLE
	function call
	mov %rsi, %rax
	test %rax, %rax
	jne 1f
	jump_by table
1:	jmp *%rax
2:	ret
	.section .rodata.call, "a"
table:	.long 2b - table
#endif

#ifdef BYTE_OVER_A_TABLE
	function call
	jump_by table
	movzbl (%rdx), %eax
	jmp *%rax
1:	ret
	.section .rodata.call, "a"
table:	.long 1b - table
#endif

#ifdef POINTER_BESIDE_A_TABLE
	function call
	lea table(%rip), %rcx
	movslq (%rcx,%rdi,4), %rax
	add %rcx, %rdx
	jmp *%rax
1:	ret
	.section .rodata.call, "a"
table:	.long 1b - table
#endif

#ifdef NUMBERS_FOR_A_TABLE
	function call
	jump_by table
	jmp *%rax
	.section .rodata.call, "a"
table:	.long 16
#endif
