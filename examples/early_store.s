# A store that is performed before the load that precedes it: hart 0 writes 2 into a word and then raises a flag,
# behind a fence; hart 1 loads the flag, writes 1 into the word, and puts out what it loaded. Where it doesn't find
# the flag raised, either store may come last.
# - early_store: the machine performs the load first. Where it finds the flag raised, the word is 2 already, and ends
#   as 1. RVWMO lets hart 1's store be performed before its load: it may put out 1, and the word may end as 2.
# - early_store_fenced, with .LFENCED: the store comes behind the load. Where that finds the flag raised, the word
#   ends as 1, on the machine and under RVWMO.
# The files keep their symbols, so that the word can be named; a symbol that begins with .L isn't kept.

        .include "rvtl.inc"

        .globl  _start, word
_start: la      t0, word
        la      t1, flag
        bnez    a0, second
        li      t2, 2
        sw      t2, 0(t0)
        fence   w, w
        li      t3, 1
        sw      t3, 0(t1)
        j       done
second: li      t2, 1
        lw      a0, 0(t1)
        when    .LFENCED, fence r, w    # else RVWMO lets the store be performed before the load
        sw      t2, 0(t0)
        put_out
done:   exit

        .balign 64
word:   .word   0
        .balign 64
flag:   .word   0
