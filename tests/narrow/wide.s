# Functions for tests/narrow/test: the word behind each name says what narrow.py has to call it.

    .macro function name
    .section .text.\name, "ax"
    .globl \name
\name:
    .endm

    function two_operands_64        # wide
    imul    %rsi, %rdi
    ret

    function constant_64            # wide
    imul    $180, %rdi, %rax
    ret

    function from_memory_64         # wide
    imul    8(%rdi), %r9
    ret

    function one_operand_64         # wide
    mul     %rsi
    ret

    function one_operand_64_signed  # wide
    imul    %rsi
    ret

    function one_operand_32         # wide
    mull    (%rdi)
    ret

    function one_operand_32_signed  # wide
    imul    %esi
    ret

    function high_half_64           # wide
    mulx    %rsi, %rax, %rcx
    ret

    function high_half_32           # wide
    mulx    %esi, %eax, %ecx
    ret

    function vector_unsigned        # wide
    pmuludq %xmm1, %xmm0
    ret

    function vector_signed          # wide
    pmuldq  %xmm1, %xmm0
    ret

    function vector_32              # wide
    pmulld  %xmm1, %xmm0
    ret

    function vector_unsigned_256    # wide
    vpmuludq %ymm2, %ymm1, %ymm0
    ret

    function float                  # wide
    mulss   %xmm1, %xmm0
    ret

    function in_what_is_called      # wide
    call    two_operands_64
    ret

    function in_what_is_jumped_to   # wide
    jmp     vector_unsigned

    function in_the_same_section    # wide
    jmp     beside
beside:
    imul    %rsi, %rdi
    ret

    function of_the_old_floats      # unknown
    fmul    %st(1)
    ret

    function of_tiles               # unknown
    tdpbssd %tmm2, %tmm1, %tmm0
    ret

    function vector_16              # narrow
    pmullw  %xmm1, %xmm0
    pmulhw  %xmm1, %xmm2
    pmulhuw %xmm1, %xmm2
    pmaddwd %xmm1, %xmm3
    ret

    function registers_of_32        # narrow
    imul    %esi, %edi
    imul    $45, %r9d, %eax
    imul    4(%rdi), %eax
    ret

    function registers_of_16        # narrow
    imul    %si, %di
    ret

    function two_registers_of_16    # narrow
    imul    %si
    mul     %cx
    mulw    (%rdi)
    ret
