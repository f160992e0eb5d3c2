# Where a program begins: gp reaches its data, tp what a thread has of its own, and sp stays where it is.
.globl _start
.section .text.start, "ax"
_start:
.option push
.option norelax
    la gp, __global_pointer$
.option pop
    la tp, __tls_start
    la s0, __init_array_start
    la s1, __init_array_end
next:
    beq s0, s1, run
    lw t0, 0(s0)
    addi s0, s0, 4
    jalr t0
    j next
run:
    lw a0, main_word_count
    la a1, main_words
    call main
    call exit
