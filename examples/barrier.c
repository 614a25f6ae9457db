/* A barrier: each hart writes its number, counted from 1, waits until all have come, and puts out what the next hart
   wrote.
   - barrier: whatever the order of events, hart h puts out h + 2, and the last one 1.
   - barrier_unacquired, with UNACQUIRED: the machine performs loads in order, with 2 harts 2 1. RVWMO lets the next
     one's number be read before the wait has ended: then it may be 0.
   - barrier_unfenced, with UNRELEASED and UNACQUIRED, orders nothing: what a hart wrote may still wait when it has
     come, so that each hart puts out 0 or what it puts out in barrier, whatever the others do: with n harts 2 to
     the n outcomes. Under Ztso the count is written behind what was written before it, and there is one outcome. */
#include "rvtl.h"

#ifdef UNRELEASED
#define COME __ATOMIC_RELAXED
#else
#define COME __ATOMIC_RELEASE  /* behind what the hart wrote: else that may still wait in its store buffer */
#endif

#ifdef UNACQUIRED
#define WAIT __ATOMIC_RELAXED
#else
#define WAIT __ATOMIC_ACQUIRE  /* before what another one wrote: else RVWMO lets that be read before */
#endif

static volatile unsigned written[8];  /* volatile: without order by the atomics the compiler is bound, too */
static unsigned come;

static void wait_for_all(unsigned harts)
{
    __atomic_fetch_add(&come, 1, COME);
    while (__atomic_load_n(&come, WAIT) != harts)
        ;
}

int main(unsigned hart, unsigned harts)
{
    written[hart] = hart + 1;
    wait_for_all(harts);
    put_out(written[hart + 1 == harts ? 0 : hart + 1]);
    return 0;
}
