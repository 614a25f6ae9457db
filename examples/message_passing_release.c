/* Message passing by release and acquire: hart 0 writes a message and then raises a flag; the others wait for the
   flag and put out the message: 42, whatever the order of events, on this machine and under RVWMO. */
#include "rvtl.h"
#include <stdatomic.h>

static unsigned message;
static atomic_uint flag;

int main(unsigned hart, unsigned harts)
{
    if (hart == 0) {
        message = 42;
        atomic_store_explicit(&flag, 1, memory_order_release);
    } else {
        while (!atomic_load_explicit(&flag, memory_order_acquire))
            ;
        put_out(message);
    }
    return 0;
}
