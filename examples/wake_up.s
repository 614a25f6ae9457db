# A wake-up: hart 1 says that it sleeps, looks once whether there is work, and else waits to be woken. Hart 0 says that
# there is work, looks once whether hart 1 sleeps, and wakes it.
# - wake_up, with FENCED: each looks behind its own store, so one sees the other's, and both end.
# - wake_up_lost: each may look before its own store leaves the buffer. Then hart 0 wakes nobody, and hart 1 waits for
#   ever.

        .include "rvtl.inc"

        word    work
        word    sleeping
        word    woken

        .globl  _start
_start: la      t0, work
        la      t1, sleeping
        la      t2, woken
        li      t3, 1
        bnez    a0, sleeper
        sw      t3, 0(t0)
        when    FENCED, fence w, r      # else the look comes first
        lw      t4, 0(t1)
        beqz    t4, done
        sw      t3, 0(t2)
        exit
sleeper: sw     t3, 0(t1)
        when    FENCED, fence w, r      # else the look comes first
        lw      t4, 0(t0)
        bnez    t4, done
sleep:  lw      t4, 0(t2)
        beqz    t4, sleep
done:   exit
