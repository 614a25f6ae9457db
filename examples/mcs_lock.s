# The queue lock of Mellor-Crummey and Scott for any number of harts: each waits at a word of its own until the hart
# before it in the queue hands the lock on. It then adds 1 to a counter and puts out what it wrote.
# - mcs_lock: one enters behind the other. With n harts the numbers 1 to n are put out, in any of the n! orders.
# - mcs_lock_unacquired, with UNACQUIRED: the machine performs loads in order, with 2 harts 1 2 and 2 1. RVWMO lets
#   the counter be read before the wait has ended: then both read 0, and it may be 1 1 too.

        .include "rvtl.inc"

        .globl  _start
_start: li      s0, 0x80000200          # the queue's tail: the last one's node
        li      s1, 0x80000240          # the counter
        li      s2, 0x80000280          # the harts' nodes of 16 bytes: the next one's node, and whether to wait
        slli    t0, a0, 4
        add     s2, s2, t0
        li      t1, 1
        sw      t1, 4(s2)
        amoswap.w.aqrl t0, s2, (s0)
        beqz    t0, inside
        sw      s2, 0(t0)
wait:   lw      t1, 4(s2)
        bnez    t1, wait
inside: unless  UNACQUIRED, fence r, rw # the counter behind the wait: else RVWMO lets it be read before
        add_one s1
        fence   rw, rw
leave:  lw      t0, 0(s2)
        bnez    t0, hand_on
        lr.w    t1, (s0)                # nobody is known to be behind
        bne     t1, s2, leave
        sc.w    t2, zero, (s0)
        bnez    t2, leave
        j       out
hand_on:
        sw      zero, 4(t0)
out:    put_out
        exit
