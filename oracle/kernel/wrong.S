# What no kernel may link: one of each thing that `examine` finds.

    .text
    .globl wrong
wrong:
    fninit                      # not a general instruction
    movq %xmm0, %rax            # a vector register
    mov %fs:0, %rax             # a segment
    mov %rax, -8(%rsp)          # below the stack pointer
    mov %rsp, %rbp
    mov %rax, -8(%rbp)          # below a copy of it
    movabs $elsewhere, %rax     # an address to fill in, of an undefined symbol
    ret

    .data
    .quad 1

    .section .tdata, "awT", @progbits
    .quad 1

    .section .note.GNU-stack, "", @progbits
