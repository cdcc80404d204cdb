# Two of the library's functions as no kernel may link them: they answer the program's questions rightly
# as long as no interrupt comes. `interrupted` must find both.

    .text

# A number that is not canonical: its status waits below the stack pointer.
    .globl wuohtan_virt_addr_new
wuohtan_virt_addr_new:
    movq $1, -8(%rsp)
    mov -8(%rsp), %rax
    ret

# Level 4: 2^48 in the first word, and a vector register changed.
    .globl wuohtan_page_table_level_table_address_space_alignment
wuohtan_page_table_level_table_address_space_alignment:
    pxor %xmm0, %xmm0
    movabs $0x1000000000000, %rax
    mov %rax, (%rdx)
    xor %eax, %eax
    ret

    .section .note.GNU-stack, "", @progbits
