/* "Answers and tables are those of the single calls made one after another". These are made of the heap under test. */
#ifndef SINGLES_H
#define SINGLES_H

#include "batch.h"

/* What single calls leave. */
struct singles {
    struct heap heap;
    struct answers answers;
    struct totals totals;
};

/* The heap is copied, and its lengths fit. */
struct singles singles_of(struct heap *heap, struct records records, struct totals totals);
void singles_free(struct singles *singles);

#endif
