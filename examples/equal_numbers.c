/* Two numbers that are equal whenever nobody has the lock: each hart takes it, asserts that, adds 1 to both and gives
   it back.
   - equal_numbers: the assertion never fails.
   - equal_numbers_unreleased, with UNRELEASED: the lock may be given back before both numbers are written, so that the
     next hart may find one old and one new.
   - equal_numbers_unacquired, with UNACQUIRED: the machine performs loads in order, so it doesn't fail here. RVWMO lets a
     number be read before the lock is taken, so there it may. */
#include "rvtl.h"

#ifdef UNACQUIRED
#define TAKE __ATOMIC_RELAXED
#else
#define TAKE __ATOMIC_ACQUIRE  /* before what is read: else RVWMO lets that be read before */
#endif

#ifdef UNRELEASED
#define GIVE __ATOMIC_RELAXED
#else
#define GIVE __ATOMIC_RELEASE  /* behind what was written: else that may still wait in the store buffer */
#endif

static unsigned lock;
static volatile unsigned left, right;  /* volatile: without order by the atomics the compiler is bound, too */

int main(unsigned hart, unsigned harts)
{
    while (__atomic_exchange_n(&lock, 1, TAKE))
        ;
    assert(left == right);
    left = left + 1;
    right = right + 1;
    __atomic_store_n(&lock, 0, GIVE);
    return 0;
}
