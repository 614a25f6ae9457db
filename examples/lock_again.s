# A lock by AMOSWAP that is taken around a call that takes it, too.
# - lock_again: the call is told that the lock is held. One hart puts out 1 and the other 2.
# - lock_taken_twice, with TWICE: the hart waits for itself, for ever.

        .include "rvtl.inc"

        word    lock
        word    counter

        .globl  _start
_start: la      t0, lock
        la      t1, counter
        li      t3, 1
take:   amoswap.w.aq t4, t3, (t0)
        bnez    t4, take
        when    TWICE, again: amoswap.w.aq t4, t3, (t0)
        when    TWICE, bnez t4, again
        add_one t1
        amoswap.w.rl zero, zero, (t0)
        put_out
        exit
