/*
 * stubs.S: what the stub round each native method jumps to (x86-64, System V).
 *
 * A stub loads %r11 with the struct of its native method and jumps here. The registers that may hold arguments are
 * saved, the agent is told, the words of arguments on the stack are copied below, and the method's function is called.
 * The code has the frame of any function with a frame pointer, and says so for debuggers.
 */
#if defined(__x86_64__)
    .text
    .globl jg_stub
    .hidden jg_stub
    .hidden jg_native_enters
    .hidden jg_native_leaves
    .type jg_stub, @function

    /*
     * Where the saved registers are: six for integers, then eight for floating point. Those for integers stay as they
     * were until the method has returned (SAVED of natives.c). What it returns stands where the others were.
     */
    .set SAVED, -128
    .set RESULT, SAVED+48

jg_stub:
    .cfi_startproc
    pushq %rbp
    .cfi_def_cfa_offset 16
    .cfi_offset %rbp, -16
    movq %rsp, %rbp
    .cfi_def_cfa_register %rbp
    pushq %rbx
    .cfi_offset %rbx, -24
    pushq %r12
    .cfi_offset %r12, -32
    subq $112, %rsp
    movq %r11, %r12
    movq %rdi, SAVED+0(%rbp)
    movq %rsi, SAVED+8(%rbp)
    movq %rdx, SAVED+16(%rbp)
    movq %rcx, SAVED+24(%rbp)
    movq %r8, SAVED+32(%rbp)
    movq %r9, SAVED+40(%rbp)
    movsd %xmm0, SAVED+48(%rbp)
    movsd %xmm1, SAVED+56(%rbp)
    movsd %xmm2, SAVED+64(%rbp)
    movsd %xmm3, SAVED+72(%rbp)
    movsd %xmm4, SAVED+80(%rbp)
    movsd %xmm5, SAVED+88(%rbp)
    movsd %xmm6, SAVED+96(%rbp)
    movsd %xmm7, SAVED+104(%rbp)

    /* struct entry jg_native_enters(native, registers, frame): the function or 0, and how many words to copy */
    movq %r12, %rdi
    leaq SAVED(%rbp), %rsi
    movq %rbp, %rdx
    call jg_native_enters
    movq %rax, %rbx
    testq %rax, %rax
    jz .Lrefused
    testq %rdx, %rdx
    jz .Lcopied
    movq %rdx, %rcx
    leaq 1(%rdx), %rax
    andq $-2, %rax
    shlq $3, %rax
    subq %rax, %rsp
    leaq 16(%rbp), %rsi
    movq %rsp, %rdi
    rep movsq
.Lcopied:
    movq SAVED+0(%rbp), %rdi
    movq SAVED+8(%rbp), %rsi
    movq SAVED+16(%rbp), %rdx
    movq SAVED+24(%rbp), %rcx
    movq SAVED+32(%rbp), %r8
    movq SAVED+40(%rbp), %r9
    movsd SAVED+48(%rbp), %xmm0
    movsd SAVED+56(%rbp), %xmm1
    movsd SAVED+64(%rbp), %xmm2
    movsd SAVED+72(%rbp), %xmm3
    movsd SAVED+80(%rbp), %xmm4
    movsd SAVED+88(%rbp), %xmm5
    movsd SAVED+96(%rbp), %xmm6
    movsd SAVED+104(%rbp), %xmm7
    call *%rbx
    jmp .Lreturned
.Lrefused:
    xorl %eax, %eax
    xorps %xmm0, %xmm0
.Lreturned:
    /* void jg_native_leaves(native, results, frame) */
    leaq SAVED(%rbp), %rsp
    movq %rax, RESULT+0(%rbp)
    movsd %xmm0, RESULT+8(%rbp)
    movq %r12, %rdi
    leaq RESULT(%rbp), %rsi
    movq %rbp, %rdx
    call jg_native_leaves
    movq RESULT+0(%rbp), %rax
    movsd RESULT+8(%rbp), %xmm0
    addq $112, %rsp
    popq %r12
    popq %rbx
    popq %rbp
    .cfi_def_cfa %rsp, 8
    ret
    .cfi_endproc
    .size jg_stub, . - jg_stub
#endif
    .section .note.GNU-stack, "", @progbits
