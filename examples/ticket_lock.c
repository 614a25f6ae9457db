/* A ticket lock around a counter. Each hart takes the lock 10 times and adds 1 to the counter, waits
   until all harts are done, and puts the counter out: 10 times the number of harts, whatever the
   order of events. */
#include "rvtl.h"

static unsigned next_ticket;
static unsigned now_serving;
static unsigned done;
static unsigned counter;

static void lock(void)
{
    unsigned mine = __atomic_fetch_add(&next_ticket, 1, __ATOMIC_RELAXED);
    while (__atomic_load_n(&now_serving, __ATOMIC_ACQUIRE) != mine)
        ;
}

static void unlock(void)
{
    __atomic_store_n(&now_serving, now_serving + 1, __ATOMIC_RELEASE);
}

int main(unsigned hart, unsigned harts)
{
    for (int round = 0; round < 10; round++) {
        lock();
        counter++;
        unlock();
    }
    __atomic_fetch_add(&done, 1, __ATOMIC_RELEASE);
    while (__atomic_load_n(&done, __ATOMIC_ACQUIRE) != harts)
        ;
    put_out(counter);
    return 0;
}
