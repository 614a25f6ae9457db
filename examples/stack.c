/* A Treiber stack: each hart pushes a node of its own, then pops one and puts out its value. No node is pushed twice,
   so that a head that is as it was stands above the same nodes.
   - stack: each hart finds a node, each node is popped once. With n harts the numbers from 10 on, in any of the n!
     orders.
   - stack_unreleased, with UNRELEASED, which GCC 12 spoils. The compare and exchange of a push releases where it
     succeeds and is relaxed where it fails: C asks for no more, but this compiler makes of it LR and SC with no
     fence and no rl. So a node may be found while its words still wait in the store buffer. With 2 harts each may
     pop its own node, 10 11. Hart 0 may pop hart 1's, with its value or 0, and find the next node, which hart 1
     pops, or 0, and hart 1 finds the stack empty: 11 10, 0 10, 11 and nothing, 0 and nothing. Where hart 1 pops
     hart 0's it is 11 10, 11 0, nothing and 10, nothing and 0: 8 outcomes. Under Ztso an SC waits for the stores
     before it: 10 11 and 11 10, as with the fence. */
#include "rvtl.h"
#include <stdatomic.h>

struct node {
    struct node *next;
    unsigned value;
};

static struct node nodes[8];
static _Atomic(struct node *) head;

static void push(struct node *mine)
{
    struct node *first = atomic_load_explicit(&head, memory_order_relaxed);
    do {
        mine->next = first;
#ifndef UNRELEASED
        atomic_thread_fence(memory_order_release);  /* for GCC 12, which forgets the release below */
#endif
    } while (!atomic_compare_exchange_weak_explicit(&head, &first, mine, memory_order_release, memory_order_relaxed));
}

static struct node *pop(void)
{
    struct node *first = atomic_load_explicit(&head, memory_order_acquire);
    while (first
           && !atomic_compare_exchange_weak_explicit(&head, &first, first->next, memory_order_acquire,
                                                     memory_order_acquire))
        ;
    return first;
}

int main(unsigned hart, unsigned harts)
{
    nodes[hart].value = hart + 10;
    push(&nodes[hart]);
    struct node *popped = pop();
    if (popped)
        put_out(popped->value);
    return 0;
}
