# Functions whose stack is known, for tests/stack/test: the number behind each name is what stack.py has to find.

    .macro function name
    .section .text.\name, "ax"
    .globl \name
\name:
    .endm

    function leaf                   # 8: its return address
    ret

    function saves                  # 56: 8, a register, 32 octets, and leaf's 8
    push    %rbx
    sub     $32, %rsp
    call    leaf
    add     $32, %rsp
    pop     %rbx
    ret

    function tail                   # 56: the return address becomes that of saves
    jmp     saves

    function either                 # 24: 8, a register, and the return address of a call to memcpy
    test    %rdi, %rdi
    je      1f
    push    %rbx
    call    memcpy
    pop     %rbx
1:  ret

    function below                  # 72: 8, and 64 below the stack pointer
    mov     %rax, -64(%rsp)
    ret

    function switch                 # 80: 8, and in the third case 64 and leaf's 8
    cmp     $2, %edi
    ja      9f
    mov     %edi, %eax
    lea     .Ltable(%rip), %rcx
    movslq  (%rcx,%rax,4), %rax
    add     %rcx, %rax
    jmp     *%rax
1:  ret
2:  push    %rbx
    pop     %rbx
    ret
3:  sub     $64, %rsp
    call    leaf
    add     $64, %rsp
9:  ret
    .section .rodata.switch, "a"
    .long   0                       # another table before it is not this one's
.Ltable:
    .long   1b - .Ltable, 2b - .Ltable, 3b - .Ltable
