/* Store buffering by relaxed atomics: each hart stores 1 to its own word, then loads the next one's and puts out what
   it loaded. GCC 12 stores an atomic by AMOSWAP, which doesn't wait in the store buffer: on this machine not all put
   out 0, as the last hart to store loads behind all stores, and all else may be (with 2 harts 3 outcomes, with 3 harts
   7). RVWMO lets the load be performed before the AMOSWAP: all may put out 0, too. Ztso doesn't, since an AMOSWAP is
   a load, too. */
#include "rvtl.h"
#include <stdatomic.h>

static atomic_uint stored[8];

int main(unsigned hart, unsigned harts)
{
    atomic_store_explicit(&stored[hart], 1, memory_order_relaxed);
    put_out(atomic_load_explicit(&stored[hart + 1 == harts ? 0 : hart + 1], memory_order_relaxed));
    return 0;
}
