/* Store buffering by atomics that are sequentially consistent, as they are in C unless something else is asked: each
   hart stores 1 to its own word, then loads the next one's and puts out what it loaded. Not all put out 0, as the last
   hart to store loads behind all stores; all else may be: with 2 harts 3 outcomes, with 3 harts 7. */
#include "rvtl.h"
#include <stdatomic.h>

static atomic_uint stored[8];

int main(unsigned hart, unsigned harts)
{
    stored[hart] = 1;
    put_out(stored[hart + 1 == harts ? 0 : hart + 1]);
    return 0;
}
