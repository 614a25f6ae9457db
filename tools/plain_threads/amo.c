/* All harts add to one word. */
#include "rvtl.h"
static unsigned counter;
int main(unsigned hart, unsigned harts)
{
    for (unsigned i = 0; i < ROUNDS; i++)
        __atomic_fetch_add(&counter, 1, __ATOMIC_RELAXED);
    put_out(counter);
    return 0;
}
