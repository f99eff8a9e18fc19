// The start of the program on Linux: the C library calls run_program with the words. (All its versions since 2.17 have
// __libc_start_main with these parameters.)
    .globl _start
    .type _start, %function
_start:
    mov x29, #0
    mov x30, #0
    mov x5, x0
    ldr x1, [sp]
    add x2, sp, #8
    mov x6, sp
    adrp x0, run_program
    add x0, x0, :lo12:run_program
    mov x3, #0
    mov x4, #0
    bl __libc_start_main
    bl abort
    .section .note.GNU-stack, "", %progbits
