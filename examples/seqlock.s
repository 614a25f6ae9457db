# A sequence lock: hart 0 makes the number odd, writes 10 and 1 into two words, and makes the number even again. Each
# other hart reads the number, both words and the number again, until it is even and has stayed, and puts out the sum
# of the words.
# - seqlock: the fences keep the writer's stores, and the readers' loads, in order. Each reader puts out 0 or 11,
#   whatever the others do (with 2 harts two outcomes, with 3 harts four).
# - seqlock_unfenced, with UNFENCED: the words may be written before the number is odd, each on its own, while the
#   readers see 0. Each reader puts out 0, 1, 10 or 11, whatever the others do (with 2 harts four outcomes, with 3
#   harts sixteen). Under Ztso stores stay in order, and it is 0 or 11.
# - seqlock_unacquired, with UNACQUIRED: the machine performs loads in order, and each reader puts out 0 or 11. RVWMO
#   lets both words be read before the first number and behind the second one: 1 and 10 too.

        .include "rvtl.inc"

        .globl  _start
_start: li      s0, 0x80000100          # the number
        li      s1, 0x80000140          # the words
        li      s2, 0x80000180
        bnez    a0, read
        li      t0, 1
        sw      t0, 0(s0)
        unless  UNFENCED, fence w, w    # the odd number before the words: else they may be written before it
        li      t1, 10
        sw      t1, 0(s1)
        sw      t0, 0(s2)
        fence   w, w
        li      t0, 2
        sw      t0, 0(s0)
        j       out
read:   lw      t0, 0(s0)
        andi    t1, t0, 1
        bnez    t1, read
        unless  UNACQUIRED, fence r, r  # the words behind the first number: else RVWMO lets them be read before
        lw      t2, 0(s1)
        lw      t3, 0(s2)
        unless  UNACQUIRED, fence r, r  # the second number behind the words: else RVWMO lets it be read before
        lw      t4, 0(s0)
        bne     t0, t4, read
        add     a0, t2, t3
        put_out
out:    exit
