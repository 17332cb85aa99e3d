# Starts a program on RISC-V; it ends, or says that it faulted, by semihosting.
    .option arch, +zicsr
    .section .text.start
    .globl _start
_start:
    la t0, trap
    csrw mtvec, t0
    la sp, _stack
    la t0, _bss
    la t1, _bss_end
1:  bgeu t0, t1, 2f
    sw zero, 0(t0)
    addi t0, t0, 4
    j 1b
2:  call main
    li a1, 0x20026
out:
    li a0, 0x18
    .balign 16
    .option push
    .option norvc
    slli zero, zero, 0x1f
    ebreak
    srai zero, zero, 7
    .option pop
    j out
    .globl put
    .balign 4
put:
    mv a1, a0
    li a0, 4
    .balign 16
    .option push
    .option norvc
    slli zero, zero, 0x1f
    ebreak
    srai zero, zero, 7
    .option pop
    ret
    .balign 4
trap:
    la sp, _stack
    la a1, words
    li a0, 4
    .balign 16
    .option push
    .option norvc
    slli zero, zero, 0x1f
    ebreak
    srai zero, zero, 7
    .option pop
    li a1, 0x20023
    j out
    .section .rodata
words: .asciz "FAULT\n"
