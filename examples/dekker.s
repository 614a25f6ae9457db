# Dekker's algorithm: each hart raises its flag and enters where the other's is down; where both are up the turn
# decides. It then adds 1 to a counter and puts out what it wrote.
# - dekker, without fences: both harts may enter at once, and both put out 1.
# - dekker_fenced, with FENCED: one hart puts out 1 and the other 2.

        .include "rvtl.inc"
        .include "two_harts.inc"

        .globl  _start
_start: two_harts s3                    # t0, t1: the flags, s0: the turn, s1: the counter, s2: the other, s3: this
enter:  sw      t3, 0(t0)
        when    FENCED, fence rw, rw    # else the flag may still wait when the other's is loaded: both enter
wait:   lw      t4, 0(t1)
        beqz    t4, inside
        lw      t5, 0(s0)
        beq     t5, s3, wait
        sw      zero, 0(t0)
turn:   lw      t5, 0(s0)
        bne     t5, s3, turn
        j       enter
inside: when    FENCED, fence r, rw     # the counter behind the wait
        add_one s1
        when    FENCED, fence rw, w     # the counter before the turn and the flag: else the next one may find it old
        sw      s2, 0(s0)
        sw      zero, 0(t0)
        put_out
        exit
