# A counter by LR and SC, with a load of another line of the same set of 4 between them: each hart adds 1 and
# puts out what it wrote. Where sets hold two lines, the counter's stays: with n harts the numbers 1 to n are
# put out, in any of the n! orders. Where they hold one, the load drives the counter's line out of the cache,
# the SC fails each time, and no hart ever ends: no outcome.

        .include "rvtl.inc"

        .globl  _start
_start: li      s0, 0x80000100          # the counter
        li      s1, 0x80000140          # a word of another line of its set
again:  lr.w    t0, (s0)
        lw      t1, 0(s1)
        add     a0, t0, t1
        addi    a0, a0, 1
        sc.w    t2, a0, (s0)
        bnez    t2, again
        put_out
        exit
