/* Dekker's algorithm for two harts: each says that it wants to enter, and enters where the other doesn't; where both
   want to, the turn decides. It then adds 1 to a counter and puts out what it wrote.
   - dekker_volatile, without SEQ_CST: what each wants may still wait when the other asks, and both enter: 1 1, 1 2
     and 2 1, also under Ztso. (Not 2 2: each puts out one more than it loaded, and a hart that loads 1 loads what the
     other wrote when it loaded 0.)
   - dekker_seq_cst, with SEQ_CST: one enters behind the other, 1 2 and 2 1. */
#include "two_harts.h"

static void lock(unsigned hart)
{
    wants[hart] = 1;
    while (wants[1 - hart])
        if (turn != hart) {
            wants[hart] = 0;
            while (turn != hart)
                ;
            wants[hart] = 1;
        }
}

static void unlock(unsigned hart)
{
    turn = 1 - hart;
    wants[hart] = 0;
}

#include "counted.h"  /* main */
