# Functions as no compiler makes them, for c/check to try c/stack on: see c/deep.h.
        .text

# 128 bytes, by a negative number.
        .globl  odd_minus
odd_minus:
        add     $-128, %rsp
        sub     $-128, %rsp
        ret

# Functions of the C library, which no archive has: one is called with a word pushed, one is gone on in.
        .globl  odd_copy
odd_copy:
        push    %rdi
        call    memcpy@PLT
        pop     %rdi
        ret

        .globl  odd_move
odd_move:
        jmp     memmove@PLT

# It returns to what it was given.
        .globl  odd_target
odd_target:
        mov     %rdi, (%rsp)
        ret

# It returns to what it pushed.
        .globl  odd_return
odd_return:
        push    %rdi
        ret

# It pushes or does not, and goes on.
        .globl  odd_depths
odd_depths:
        test    %rdi, %rdi
        je      1f
        push    %rdi
1:      mov     %rdi, %rax
        jmp     1b

# c/deep.c has it too.
        .globl  odd_twice
odd_twice:
        ret

# It pushes a word in one of the cases among which it chooses by a table. Both sections have colons in their names, as
# those of a crate's functions.
        .section        ".text.odd::named", "ax"
        .globl  odd_named
odd_named:
        lea     2f(%rip), %rax
        movslq  (%rax,%rdi,4), %rdx
        add     %rax, %rdx
        jmp     *%rdx
0:      push    %rdi
        pop     %rdi
1:      ret

        .section        ".rodata.odd::named", "a"
2:      .long   0b-2b, 1b-2b
