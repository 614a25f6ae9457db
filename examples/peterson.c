/* Peterson's algorithm for two harts: each says that it wants to enter, gives the turn away, and enters where the
   other doesn't want to or the turn has come back. It then adds 1 to a counter and puts out what it wrote.
   - peterson_volatile, without SEQ_CST: what each wants may still wait when the other asks, and both enter: 1 1, 1 2
     and 2 1, also under Ztso. (Not 2 2: a hart that loads 1 loads what the other wrote when it loaded 0.)
   - peterson_seq_cst, with SEQ_CST: one enters behind the other, 1 2 and 2 1. */
#include "two_harts.h"

static void lock(unsigned hart)
{
    wants[hart] = 1;
    turn = 1 - hart;
    while (wants[1 - hart] && turn != hart)
        ;
}

static void unlock(unsigned hart)
{
    wants[hart] = 0;
}

#include "counted.h"  /* main */
