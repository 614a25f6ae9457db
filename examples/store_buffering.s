# Store buffering: each hart stores 1 to its own word, then loads the other's and puts out what it loaded.
# - store_buffering, without a fence: under RVWMO both loads may return 0, since both stores may still wait.
# - store_buffering_fenced, with FENCED: at least one of the loads returns 1.

        .include "rvtl.inc"

        .globl  _start
_start: li      t0, 0x80000100          # hart 0 stores here
        li      t1, 0x80000140          # hart 1 stores here
        own_first
        li      t3, 1
        sw      t3, 0(t0)
        when    FENCED, fence rw, rw    # each load behind its own hart's store: else the store may still wait
        lw      a0, 0(t1)
        put_out
        exit
