# A ticket lock for any number of harts: each draws a ticket, waits until it is served, adds 1 to a counter, and puts
# out what it wrote.
# - ticket_fenced, with FENCED: one enters behind the other. With n harts the numbers 1 to n are put out, in any of
#   the n! orders.
# - ticket_unfenced, without: the machine performs loads in order, with 2 harts 1 2 and 2 1. RVWMO lets the counter be
#   read before the wait has ended: then both read 0, and it may be 1 1 too.
# - ticket_marked, with .LMARKED: the same, with a nop where `rvtl fences --allow` is to find which fence is missing.

        .include "rvtl.inc"

        .globl  _start
_start: li      t0, 0x80000100          # the next ticket
        li      t1, 0x80000140          # the ticket that is served
        li      t2, 0x80000180          # the counter
        li      t3, 1
        amoadd.w t4, t3, (t0)
wait:   lw      t5, 0(t1)
        bne     t5, t4, wait
        when    FENCED, fence r, rw     # the counter behind the wait: else RVWMO lets it be read before
        when    .LMARKED, nop           # where that fence is missing
        add_one t2
        fence   rw, w                   # the counter before the next one is served
        addi    t4, t4, 1
        sw      t4, 0(t1)
        put_out
        exit
