# void on_stack(void *top, void (*call)(void), struct after *after)
# Makes the call on the stack that ends at top (a multiple of 16) with the registers that a call may change at zero, and
# stores those afterwards: rax rcx rdx rsi rdi r8 r9 r10 r11, then xmm0 to xmm15. Those that a call must keep, it may
# store on the stack: they do not differ between the turns either (rbx, rbp and r12 are used here, r13 to r15 are zero).
    .text
    .globl on_stack
    .type on_stack, @function
on_stack:
    .irp r, rbx, rbp, r12, r13, r14, r15
    push %\r
    .endr
    mov %rdx, %rbx
    mov %rsp, %rbp
    mov %rdi, %rsp
    mov %rsi, %r12
    .irp r, eax, ecx, edx, esi, edi, r8d, r9d, r10d, r11d, r13d, r14d, r15d
    xor %\r, %\r
    .endr
    .irp n, 0, 1, 2, 3, 4, 5, 6, 7, 8, 9, 10, 11, 12, 13, 14, 15
    pxor %xmm\n, %xmm\n
    .endr
    call *%r12
    mov %rbp, %rsp
    .set at, 0
    .irp r, rax, rcx, rdx, rsi, rdi, r8, r9, r10, r11
    mov %\r, at(%rbx)
    .set at, at + 8
    .endr
    .irp n, 0, 1, 2, 3, 4, 5, 6, 7, 8, 9, 10, 11, 12, 13, 14, 15
    movups %xmm\n, at(%rbx)
    .set at, at + 16
    .endr
    .irp r, r15, r14, r13, r12, rbp, rbx
    pop %\r
    .endr
    ret
    .size on_stack, . - on_stack
    .section .note.GNU-stack, "", @progbits
