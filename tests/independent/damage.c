/* Sound heaps, drawn or made by calls, are broken in each way; then no call may do anything but FRESH. */
#include "suites.h"

#include "choice.h"
#include "damaged.h"

/* The first call would be refused as NUMBER on a sound heap: it shows a clause that is left out without following any
   reference. At last FRESH is done, "whatever stood there". */
static void call_on_damaged(struct pair *pair)
{
    demand(pair_call(pair, START, ROOTS, 0, 0).refused == DAMAGED, "a damaged heap is refused");
    for (int op = NEW; op < OPS; op++)
        blind_call(pair, op);
    demand(pair_call(pair, COLLECT, 0, 0, 0).refused == DAMAGED, "a damaged heap stays so");
    demand(pair_call(pair, FRESH, 0, 0, 0).refused == DONE, "FRESH is done on damaged tables");
}

void damage(void)
{
    each_damaged(call_on_damaged);
}
