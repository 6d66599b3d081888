/* The lists and totals of Q-7, lent to the heap under test in the header's own types, with guards around them. */
#ifndef LENT_LISTS_H
#define LENT_LISTS_H

#include "batch.h"
#include "bytes.h"

struct lent_lists {
    struct bytes records, answers, totals;
};

/* The guards are all `fill`. */
struct lent_lists lent_lists_of(struct records records, struct answers answers, const struct totals *totals, uint8_t fill);
void lent_lists_free(struct lent_lists *lent);

/* What differs from what is owed, or is written around it, in words; null if nothing. Both have the same lengths. */
const char *lent_lists_difference(const struct lent_lists *lent, const struct lent_lists *owed);

#endif
