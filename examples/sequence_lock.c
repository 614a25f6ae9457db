/* A sequence lock: hart 0 makes the number odd, writes 10 and 1 into two words, and makes the number even again. Each
   other hart reads the number, both words and the number again, until it was even and has stayed, and puts out the
   sum of the words.
   - sequence_lock: the fences keep the writer's stores, and the readers' loads, in order. Each reader puts out 0 or
     11, whatever the others do (with 2 harts 2 outcomes, with 3 harts 4).
   - sequence_lock_unfenced, with UNFENCED: the words may leave the store buffer before the odd number, each on its
     own. Each reader puts out 0, 1, 10 or 11, whatever the others do (with 2 harts 4 outcomes, with 3 harts 16).
     Under Ztso stores stay in order: 0 or 11. */
#include "rvtl.h"
#include <stdatomic.h>

static volatile unsigned number;
static volatile unsigned words[2];

static void write_words(unsigned first, unsigned second)
{
    number++;
#ifndef UNFENCED
    atomic_thread_fence(memory_order_release);  /* the odd number before the words */
#endif
    words[0] = first;
    words[1] = second;
    atomic_thread_fence(memory_order_release);
    number++;
}

static unsigned sum_of_words(void)
{
    for (;;) {
        unsigned before = number;
        atomic_thread_fence(memory_order_acquire);
        unsigned sum = words[0] + words[1];
        atomic_thread_fence(memory_order_acquire);
        if (before % 2 == 0 && number == before)
            return sum;
    }
}

int main(unsigned hart, unsigned harts)
{
    if (hart == 0)
        write_words(10, 1);
    else
        put_out(sum_of_words());
    return 0;
}
