/* Totals by their places, how large they may be, and random ones. */
#ifndef TOTALS_H
#define TOTALS_H

#include "batch.h"

/* Calls done, calls refused, cells freed, cells queued. */
enum { TOTALS = 4 };
uint64_t *total_at(struct totals *totals, size_t place);
uint64_t total_of(struct totals totals, size_t place);

/* The largest that a total may be with a list of so many records. */
uint64_t total_limit(size_t len);

/* Four different numbers, with which a list of so many records is not refused. Mostly each is a little below a number that has
   more bits, or below the largest that it may be. */
struct totals some_totals(size_t len);

#endif
