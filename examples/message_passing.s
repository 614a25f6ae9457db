# Message passing: hart 0 writes a message and then raises a flag; hart 1 waits for the flag and reads.
# - message_passing, without fences: the flag may be seen before the message, and hart 1 puts out 0.
# - message_passing_fenced, with RELEASED and ACQUIRED: message and flag are ordered on both sides, and hart 1 puts
#   out 42.
# - message_passing_unacquired, with RELEASED: the machine performs loads in order, and hart 1 puts out 42. RVWMO lets
#   the message be read before the flag: hart 1 puts out 42 or 0.

        .include "rvtl.inc"

        .globl  _start
_start: li      t0, 0x80000100          # the message
        li      t1, 0x80000140          # the flag
        bnez    a0, reader
        li      t2, 42
        sw      t2, 0(t0)
        when    RELEASED, fence w, w    # else the flag may leave the store buffer before the message
        li      t3, 1
        sw      t3, 0(t1)
        j       done
reader: lw      t3, 0(t1)
        beqz    t3, reader
        when    ACQUIRED, fence r, r    # else RVWMO lets the message be read before the flag
        lw      a0, 0(t0)
        put_out
done:   exit
