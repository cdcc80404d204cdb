# The parts of the program that C cannot say.

    .text

    .globl _start
_start:
    xor %ebp, %ebp
    and $-16, %rsp
    call run
    mov %eax, %edi
    mov $60, %eax               # exit
    syscall

# From here on the processor traps after each instruction. The vector registers get a pattern, since they
# stand for a user program's: what an earlier call left in them would hide a change to the same value.
    .globl trap_on
trap_on:
    .irp number, 0, 1, 2, 3, 4, 5, 6, 7, 8, 9, 10, 11, 12, 13, 14, 15
    movdqu pattern(%rip), %xmm\number
    .endr
    pushfq
    orq $0x100, (%rsp)
    popfq
    ret

    .globl trap_off
trap_off:
    pushfq
    andq $~0x100, (%rsp)
    popfq
    ret

# Four numbers to a system call of Linux, and its answer.
    .globl system_call
system_call:
    mov %rdi, %rax
    mov %rsi, %rdi
    mov %rdx, %rsi
    mov %rcx, %rdx
    mov %r8, %r10
    syscall
    ret

# What a handler of a signal returns to.
    .globl signal_return
signal_return:
    mov $15, %eax               # rt_sigreturn
    syscall

    .section .rodata
pattern:
    .quad 0xa5c396f05a3c690f, 0x0123456789abcdef

    .section .note.GNU-stack, "", @progbits
