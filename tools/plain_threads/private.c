/* A loop of private instructions. */
#include "rvtl.h"
int main(unsigned hart, unsigned harts)
{
    unsigned x = hart + 1;
    for (unsigned i = 0; i < ROUNDS; i++) {
        x ^= x << 13;
        x ^= x >> 17;
        x ^= x << 5;
        __asm__ volatile("" : "+r"(x));
    }
    put_out(x);
    return 0;
}
