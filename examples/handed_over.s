# A count that is handed over: hart 0 writes how many there are and then says so; hart 1 waits for that, loads the count
# once and counts it down to 0.
# - handed_over, with ACQUIRED: the count is 2, and both harts end.
# - handed_over_unacquired: the machine performs loads in order, so both end here. RVWMO lets the count be read before
#   the flag, as 0; hart 1 then goes round and never comes to 0.

        .include "rvtl.inc"

        word    count
        word    ready

        .globl  _start
_start: la      t0, count
        la      t1, ready
        bnez    a0, taker
        li      t2, 2
        sw      t2, 0(t0)
        fence   w, w
        sw      t2, 0(t1)
        exit
taker:  lw      t2, 0(t1)
        beqz    t2, taker
        when    ACQUIRED, fence r, r    # else RVWMO lets the count be read before the flag
        lw      t3, 0(t0)
        beqz    t3, round               # nothing was handed over
down:   addi    t3, t3, -1
        bnez    t3, down
        exit
round:  j       round
