/* Notes what a call frees, by kind, and what it takes references off, both by how: in a cascade or in a sweep. */
#ifndef FREED_H
#define FREED_H

#include "heap.h"

#include <stdbool.h>

/* Of the tables before the call, what a freed cell no longer shows. */
struct before {
    uint16_t kind[CELLS_MAX], slots[SLOTS * CELLS_MAX];
};

void before_call(struct before *before, const struct heap *heap);
void note_freed(const struct before *before, const struct heap *heap, enum op op);

/* Whether a list has each cell that was used before the call and is free after it, once, and then 0: told from the kinds, not
   from how they were freed. */
bool lists_freed(const struct table *list, const struct before *before, const struct heap *heap);

#endif
