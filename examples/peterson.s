# Peterson's algorithm for two harts: each raises its flag, gives the turn away, and enters where the other's flag is
# down or the turn has come back. It then adds 1 to a counter and puts out what it wrote.
# - peterson, without fences: both harts may enter at once, since each one's flag may still wait in its store buffer:
#   1 1, 1 2 and 2 1 can be put out. (2 2 can't: each puts out one more than it loaded, and a hart that loads 1 loads
#   what the other wrote when it loaded 0.)
# - peterson_fenced, with FENCED and ACQUIRED: one enters behind the other, 1 2 and 2 1.
# - peterson_unacquired, with FENCED: the machine performs loads in order, 1 2 and 2 1. RVWMO lets the counter be read
#   before the wait has ended: then both read 0, and it may be 1 1 too.

        .include "rvtl.inc"
        .include "two_harts.inc"

        .globl  _start
_start: two_harts                       # t0, t1: the flags, s0: the turn, s1: the counter, s2: the other
enter:  sw      t3, 0(t0)
        when    FENCED, fence w, w      # the flag before the turn
        sw      s2, 0(s0)
        when    FENCED, fence rw, rw    # both before the loads that ask for the other's: else both may enter
wait:   lw      t4, 0(t1)
        beqz    t4, inside
        lw      t5, 0(s0)
        beq     t5, s2, wait
inside: when    ACQUIRED, fence r, rw   # the counter behind the wait: else RVWMO lets it be read before
        add_one s1
        when    FENCED, fence rw, w     # the counter before the flag that goes down: else the other may find it old
        sw      zero, 0(t0)
        put_out
        exit
