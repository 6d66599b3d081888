/* The audit of Q-4 in document 02, written from it and from the words of the C header alone. */
#ifndef AUDIT_H
#define AUDIT_H

#include "heap.h"

#include <stdbool.h>

/* "up to 1,000 heaps" */
enum { HEAPS_MAX = 1000 };

struct row {
    uint64_t below, at, above;
    int64_t sum;
    uint64_t lost, size;
};

struct report {
    uint64_t heaps;
    struct row totals;
};

struct audited {
    uint16_t refused;
    struct row heap;
    struct report report;
};

/* Audits the report's next heap. Any lengths, entries and reports are answered. Refused, it writes no difference. */
struct audited audit(const struct heap *heap, int32_t *differences, size_t len, struct report report);

/* "A cell's line counts that cell alone, its difference as the sum, the rest 0" */
struct row cell_row(int32_t difference);

struct row add_rows(struct row a, struct row b);

/* What bounds the rows of a heap: its most cells, the entries that every heap has, those that come with each cell, and the
   largest count. */
struct limits {
    uint16_t cells, roots, per_cell, count;
};

extern const struct limits box;

/* possible.c: whether a list of heaps within these limits leads to the report, however long the list is. */
bool possible(const struct limits *limits, const struct report *report);

#endif
