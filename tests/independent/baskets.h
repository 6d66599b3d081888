/* Heaps full of objects that hold strings and buffers. */
#ifndef BASKETS_H
#define BASKETS_H

#include "pair.h"

/* The roots that hold the last object and the first one, and the next root, which is empty. */
enum { LAST, FIRST, NO_BASKET };

/* From tiny ones, where few cells are strings or buffers, to the largest. */
enum { BASKET_SIZES = 14 };
extern const size_t basket_sizes[BASKET_SIZES];

/* The tables are all zeros before, and their lengths fit. */
void make_baskets(struct heap *heap);

/* A single call frees all cells of the heap made so: a CLEAR, or a COLLECT of the objects in a ring. */
void free_by_clear(struct pair *pair);
void free_by_collect(struct pair *pair);

#endif
