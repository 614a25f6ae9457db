/* A lock by atomic exchange, an AMOSWAP: each hart takes it, adds 1 to a counter, and puts out what it wrote. One
   enters behind the other: with n harts the numbers 1 to n, in any of the n! orders. */
#include "rvtl.h"
#include <stdatomic.h>

static atomic_uint taken;
static unsigned counter;

static void lock(unsigned hart)
{
    while (atomic_exchange_explicit(&taken, 1, memory_order_acquire))
        ;
}

static void unlock(unsigned hart)
{
    atomic_store_explicit(&taken, 0, memory_order_release);
}

#include "counted.h"  /* main */
