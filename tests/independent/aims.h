/* Reports that lists of heaps lead to, drawn by a reading of the bounds that is not that of possible.c: each bound is a number
   of its own, and the strictest of them counts. */
#ifndef AIMS_H
#define AIMS_H

#include "audit.h"

/* How many heaps a report has that were not refused SIZE, at most, and how many cells beyond one for each. */
struct scale {
    size_t heaps, cells;
};

/* The numbers of a report but for the sum, which may be anything from the lowest to the highest. */
struct aim {
    struct report report;
    int64_t lowest, highest;
};

struct aim random_aim(struct scale scale);

/* Works the ends of the sum out anew, for other numbers. */
struct aim aim_of(struct report report);

/* The report with this sum. */
struct report aim_at(const struct aim *aim, int64_t sum);

/* A sum between the ends, mostly near one of them. */
int64_t some_sum(const struct aim *aim);

/* A number from low to high, mostly near one of them. */
int64_t near_ends(int64_t low, int64_t high);

/* The heaps that were not refused SIZE, and their entries. */
int64_t heaps_of(const struct report *report);
int64_t entries_of(const struct report *report);

/* The bounds on how far the cells below zero can be below it, all in all. */
enum bound { BY_LOST, BY_CELLS, BY_OTHERS, BOUNDS };
int64_t bound_of(const struct report *report, enum bound bound);

#endif
