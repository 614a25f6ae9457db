/* Message passing: hart 0 writes a message and then raises a flag; the others wait for the flag and put out the
   message. Volatile binds the compiler alone: the flag may leave the store buffer first, and each reader puts out
   0 or 42, whatever the others do (with 2 harts 2 outcomes, with 3 harts 4). Under Ztso stores stay in order: 42. */
#include "rvtl.h"

static volatile unsigned message;
static volatile unsigned flag;

int main(unsigned hart, unsigned harts)
{
    if (hart == 0) {
        message = 42;
        flag = 1;
    } else {
        while (!flag)
            ;
        put_out(message);
    }
    return 0;
}
