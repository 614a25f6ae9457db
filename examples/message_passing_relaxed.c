/* Message passing by relaxed atomics: hart 0 writes a message and then raises a flag; the others wait for the flag
   and put out the message. GCC 12 stores an atomic by AMOSWAP, which this machine performs in order, as it does
   loads: 42. RVWMO orders neither the stores nor the loads, and a reader may put out 0, too. Ztso orders both: 42. */
#include "rvtl.h"
#include <stdatomic.h>

static atomic_uint message;
static atomic_uint flag;

int main(unsigned hart, unsigned harts)
{
    if (hart == 0) {
        atomic_store_explicit(&message, 42, memory_order_relaxed);
        atomic_store_explicit(&flag, 1, memory_order_relaxed);
    } else {
        while (!atomic_load_explicit(&flag, memory_order_relaxed))
            ;
        put_out(atomic_load_explicit(&message, memory_order_relaxed));
    }
    return 0;
}
