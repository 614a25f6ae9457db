# Peterson's filter lock for any number of harts up to 8: level by level, a hart says how far it has come and
# that it came last, and goes on where it isn't the last any more or nobody else has come as far. Behind the
# last level it adds 1 to a counter and puts out what it wrote.
# With fences one enters behind the other: with n harts the numbers 1 to n are put out, in any of the n! orders.

        .include "rvtl.inc"

        .globl  _start
_start: li      s0, 0x80000200          # the harts' levels, one word each
        li      s1, 0x80000240          # who came last to each level, one word each
        li      s2, 0x80000280          # the counter
        slli    t0, a0, 2
        add     s3, s0, t0              # this hart's level
        slli    t0, a1, 2
        add     s4, s0, t0              # the end of the levels
        li      s5, 1                   # the level
        addi    s6, a0, 1               # this hart, counted from 1
level:  beq     s5, a1, inside
        sw      s5, 0(s3)
        fence   w, w
        slli    t0, s5, 2
        add     s7, s1, t0
        sw      s6, 0(s7)
        fence   rw, rw
ask:    lw      t1, 0(s7)
        bne     t1, s6, pass
        mv      t2, s0
other:  beq     t2, s4, pass
        beq     t2, s3, next
        lw      t3, 0(t2)
        bge     t3, s5, ask
next:   addi    t2, t2, 4
        j       other
pass:   addi    s5, s5, 1
        j       level
inside: fence   r, rw
        add_one s2
        fence   rw, w
        sw      zero, 0(s3)
        put_out
        exit
