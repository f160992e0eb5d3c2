# Where a program begins: data may be reached through gp, and main's answer is the exit code.
.globl _start
_start:
.option push
.option norelax
    la gp, __global_pointer$
.option pop
    call main
    li a7, 93
    ecall
