# Each hart loads a counter, adds 1 and stores it, and puts nothing out: what became of it only the counter's last
# word shows. Where both load it before either stores, one update is lost: 1 or 2, whatever the number of harts 1 to
# their number. The file keeps its symbols, so that the counter can be named.

        .include "rvtl.inc"

        .globl  _start, counter
_start: la      t0, counter
        lw      t1, 0(t0)
        addi    t1, t1, 1
        sw      t1, 0(t0)
        exit

        .balign 64
counter:
        .word   0
