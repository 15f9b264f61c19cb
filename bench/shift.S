/*
 * Moves what is linked behind it by SHIFT octets from the start of a page. Under QEMU a loop that lies across two pages takes up to
 * 1.7 times as long as one that does not, and which loops do is chance; so bench/run takes the best of programs linked at four shifts.
 */
    .text
    .p2align 12
    .if SHIFT > 0
    .skip SHIFT, 0x90
    .endif
    .section .note.GNU-stack, "", @progbits
