# A ticket lock whose tickets are counted by few bits. Inside each hart asserts that it is alone.
# - few_tickets, with WIDE: two bits, enough for four harts. The assertion never fails.
# - few_tickets_narrow: one bit. Two harts never have the same ticket; of three the first and the third have, and both may
#   be inside.

        .include "rvtl.inc"

        word    next
        word    serving
        word    inside

        .globl  _start
_start: la      t0, next
        la      t1, serving
        la      t2, inside
        li      t3, 1
        li      t4, -1
        amoadd.w a2, t3, (t0)
        when    WIDE, andi a2, a2, 3
        unless  WIDE, andi a2, a2, 1    # of three harts two have the same one
wait:   lw      t5, 0(t1)
        bne     t5, a2, wait
        fence   r, rw
        amoadd.w t5, t3, (t2)
        seqz    t5, t5
        assert  t5, alone
        amoadd.w zero, t4, (t2)
        fence   rw, w
        addi    a2, a2, 1
        when    WIDE, andi a2, a2, 3
        unless  WIDE, andi a2, a2, 1
        sw      a2, 0(t1)
        exit
