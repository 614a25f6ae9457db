# A lock by AMOSWAP: each hart takes it, adds 1 to a counter, and puts out what it wrote.
# - spin_lock: whatever the order of events, one hart puts out 1 and the other 2.
# - spin_lock_unacquired, with UNACQUIRED: the machine performs loads in order, 1 2 and 2 1. RVWMO lets the counter be
#   read before the lock is taken: then both read 0, and it may be 1 1 too.

        .include "rvtl.inc"

        .globl  _start
_start: li      t0, 0x80000100          # the lock: 0 is free
        li      t1, 0x80000140          # the counter
        li      t2, 1
take:   unless  UNACQUIRED, amoswap.w.aq t3, t2, (t0)
        when    UNACQUIRED, amoswap.w t3, t2, (t0) # without aq RVWMO lets what follows be read before
        bnez    t3, take
        add_one t1
        amoswap.w.rl zero, zero, (t0)
        put_out
        exit
