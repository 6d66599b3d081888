/* Notes what a batch meets. */
#ifndef BATCH_NOTING_H
#define BATCH_NOTING_H

#include "batch.h"

/* A batch as it was asked for and answered. The heap is as it was left. */
struct batched {
    struct heap *heap;
    struct records records;
    struct answers answers;
    struct totals before, after;
    struct answer answer;
};

void note_batch(const struct batched *batched);

#endif
