/* Store buffering: each hart stores 1 to its own word, then loads the next one's and puts out what it loaded.
   Volatile binds the compiler alone: all stores may still wait when the harts load, under RVWMO and under Ztso.
   So each puts out 0 or 1, whatever the others do: with 2 harts 4 outcomes, with 3 harts 8. */
#include "rvtl.h"

static volatile unsigned stored[8];

int main(unsigned hart, unsigned harts)
{
    stored[hart] = 1;
    put_out(stored[hart + 1 == harts ? 0 : hart + 1]);
    return 0;
}
