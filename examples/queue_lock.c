/* The queue lock of Mellor-Crummey and Scott: each hart waits at a node of its own until the hart before it in the
   queue hands the lock on. It then adds 1 to a counter and puts out what it wrote. One enters behind the other: with
   n harts the numbers 1 to n, in any of the n! orders. */
#include "rvtl.h"
#include <stdatomic.h>

struct node {
    _Atomic(struct node *) next;
    atomic_uint waits;
};

static struct node nodes[8];
static _Atomic(struct node *) last;
static unsigned counter;

static void lock(unsigned hart)
{
    struct node *mine = &nodes[hart];
    atomic_store_explicit(&mine->waits, 1, memory_order_relaxed);
    struct node *before = atomic_exchange_explicit(&last, mine, memory_order_acq_rel);
    if (!before)
        return;
    atomic_store_explicit(&before->next, mine, memory_order_release);
    while (atomic_load_explicit(&mine->waits, memory_order_acquire))
        ;
}

static void unlock(unsigned hart)
{
    struct node *mine = &nodes[hart];
    struct node *seen = mine;
    struct node *behind = atomic_load_explicit(&mine->next, memory_order_acquire);
    if (!behind && atomic_compare_exchange_strong(&last, &seen, 0))
        return;
    while (!behind)
        behind = atomic_load_explicit(&mine->next, memory_order_acquire);
    atomic_store_explicit(&behind->waits, 0, memory_order_release);
}

#include "counted.h"  /* main */
