/* What Dekker's and Peterson's algorithm share: two harts, each of which says whether it wants to enter, whose turn
   it is, and a counter, which they guard.
   - With SEQ_CST what a hart asks is atomic, and sequentially consistent, as it is in C unless something else is
     said.
   - Without, `volatile` binds the compiler alone: what each wants may still wait when the other asks, and both
     enter. */
#include "rvtl.h"

#ifdef SEQ_CST
#include <stdatomic.h>
typedef atomic_uint asked;
typedef unsigned guarded;
#else
typedef volatile unsigned asked;
typedef volatile unsigned guarded;
#endif

#define MOST_HARTS 2

static asked wants[MOST_HARTS];
static asked turn;
static guarded counter;
