# An assertion behind message passing: hart 1 waits for the flag, and asserts that the message is there. Hart 0 waits
# for its answer. Where the assertion fails hart 1 stops, and hart 0 waits for ever.
# - asserted, with RELEASED and ACQUIRED: it never fails.
# - asserted_unreleased, with ACQUIRED: the flag may leave the store buffer before the message, so it may fail.
# - asserted_unacquired, with RELEASED: the machine performs loads in order, so it doesn't fail here. RVWMO lets the
#   message be read before the flag, so there it may.
# - asserted_alone, with RELEASED, ACQUIRED and ALONE, and asserted_alone_unacquired, without ACQUIRED: the same, but hart 0
#   doesn't wait. So where the assertion fails both harts have ended, and an outcome shows it.

        .include "rvtl.inc"

        word    message
        word    ready
        word    answer

        .globl  _start
_start: la      t0, message
        la      t1, ready
        la      t2, answer
        li      t3, 1
        bnez    a0, reader
        sw      t3, 0(t0)
        when    RELEASED, fence w, w    # else the flag may leave the store buffer before the message
        sw      t3, 0(t1)
        unless  ALONE, wait: lw t4, 0(t2)
        unless  ALONE, beqz t4, wait
        exit
reader: lw      t4, 0(t1)
        beqz    t4, reader
        when    ACQUIRED, fence r, r    # else RVWMO lets the message be read before the flag
        lw      t5, 0(t0)
        assert  t5, there
        sw      t3, 0(t2)
        exit
