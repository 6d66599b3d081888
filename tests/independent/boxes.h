/* A list of heaps that is made for a report. */
#ifndef BOXES_H
#define BOXES_H

#include "audit.h"

/* What one heap has of a report: the entries that hold its cells below zero, and what its cells above zero have stored. */
struct share {
    size_t cells, below, above, lost, holding, stored;
};

/* Shares a report's numbers out to its heaps but those refused SIZE; false if there is too little room for them. */
bool share_out(const struct report *report, struct share shares[HEAPS_MAX]);

/* A heap with just that share. Its tables are all zeros before, and fit. */
void make_share(struct heap *heap, const struct share *share);

#endif
