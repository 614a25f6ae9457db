# A Treiber stack: each hart pushes a node of its own and then pops one, by LR and SC on the head.
# Each puts out the value that it popped: 10 and 11, in either order.

        .include "rvtl.inc"

        .globl  _start
_start: li      t0, 0x80000100          # the head: 0 is the empty stack
        slli    t1, a0, 6
        li      t2, 0x80000140
        add     t1, t1, t2              # the hart's node: the next node, then its value
        addi    t3, a0, 10
        sw      t3, 4(t1)
push:   lr.w    t4, (t0)
        sw      t4, 0(t1)
        sc.w.rl t5, t1, (t0)            # the node is written before it can be found
        bnez    t5, push
pop:    lr.w.aq t4, (t0)
        beqz    t4, empty
        lw      t6, 0(t4)
        sc.w    t5, t6, (t0)
        bnez    t5, pop
        lw      a0, 4(t4)
        put_out
empty:  exit
