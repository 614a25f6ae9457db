/* A lock by compare and exchange, LR and SC: each hart takes it, adds 1 to a counter, and puts out what it wrote.
   One enters behind the other: with n harts the numbers 1 to n, in any of the n! orders. */
#include "rvtl.h"
#include <stdatomic.h>

static atomic_uint taken;
static unsigned counter;

static void lock(unsigned hart)
{
    unsigned seen;
    do
        seen = 0;
    while (!atomic_compare_exchange_weak_explicit(&taken, &seen, 1, memory_order_acquire, memory_order_relaxed));
}

static void unlock(unsigned hart)
{
    atomic_store_explicit(&taken, 0, memory_order_release);
}

#include "counted.h"  /* main */
