/* A spin lock by AMOSWAP around a counter. */
#include "rvtl.h"
static unsigned lock __attribute__((aligned(64)));
static unsigned counter __attribute__((aligned(64)));
int main(unsigned hart, unsigned harts)
{
    for (unsigned i = 0; i < ROUNDS; i++) {
        while (__atomic_exchange_n(&lock, 1, __ATOMIC_ACQUIRE))
            ;
        counter++;
        __atomic_store_n(&lock, 0, __ATOMIC_RELEASE);
    }
    put_out(counter);
    return 0;
}
