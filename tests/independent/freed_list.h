/* The table of Q-5 for the freed cells, lent to both heaps. */
#ifndef FREED_LIST_H
#define FREED_LIST_H

#include "heap.h"

struct freed_list {
    struct table ours, theirs;
    uint16_t *guarded; /* the room of `theirs`, with guard entries around it */
};

/* The same entries on both sides, drawn anew for each call: "After a refusal it is as before", and after a call done nothing of
   what stood there shows. */
struct freed_list freed_list_of(size_t len, size_t cells);
void freed_list_free(struct freed_list *list);

/* What differs between the two, or what is written outside, in words; null if nothing. */
const char *freed_list_difference(const struct freed_list *list);

#endif
