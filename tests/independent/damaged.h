/* Heaps that are sound but for a single clause. */
#ifndef DAMAGED_H
#define DAMAGED_H

#include "pair.h"

typedef void with_damaged(struct pair *pair);

/* Calls it with sound heaps of many sizes, drawn or made by calls, each broken in each way that can be done to it. */
void each_damaged(with_damaged *with);

#endif
