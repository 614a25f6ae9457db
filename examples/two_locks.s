# Two locks by AMOSWAP, each hart takes both, adds 1 to a counter and puts out what it wrote.
# - two_locks, with ORDERED: both harts take them in one order. One puts out 1 and the other 2.
# - two_locks_crosswise: hart 1 takes the second one first. Each may hold what the other waits for, for ever.

        .include "rvtl.inc"

        word    first
        word    second
        word    counter

        .globl  _start
_start: la      t0, first
        la      t1, second
        la      s1, counter
        li      t3, 1
        unless  ORDERED, own_first      # else hart 1 takes the second one first
outer:  amoswap.w.aq t4, t3, (t0)
        bnez    t4, outer
inner:  amoswap.w.aq t4, t3, (t1)
        bnez    t4, inner
        add_one s1
        amoswap.w.rl zero, zero, (t1)
        amoswap.w.rl zero, zero, (t0)
        put_out
        exit
