/* A batch on a pair of heaps. Both are asked, and where it is done the same calls are made singly of the heap under test; the
   first difference in the answers, the totals or the tables ends the program with a report. */
#ifndef BATCHING_H
#define BATCHING_H

#include "batch.h"
#include "pair.h"

/* What the answers are before is drawn anew for each batch. */
struct answer pair_batch(struct pair *pair, struct records records, struct answers answers, struct totals *totals);

/* With so many answers lent, or as many as there are records, for who doesn't look at them. */
struct answer pair_batch_with(struct pair *pair, struct records records, size_t answers, struct totals *totals);
struct answer pair_batch_fitting(struct pair *pair, struct records records, struct totals *totals);

/* Whether all numbers are the same. */
bool same_totals(struct totals a, struct totals b);

#endif
