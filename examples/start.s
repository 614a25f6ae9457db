# Where a C program begins: each hart gets 1 KiB of stack, calls main(hart, harts), and exits with
# what main returns.

        .file   "start.s"
        .section .text.start
        .globl  _start
_start: la      sp, stacks_end
        slli    t0, a0, 10
        sub     sp, sp, t0
        call    main
        li      a7, 0                   # exit
        ecall
