/* Heaps made directly of cells of which it is known what the next COLLECT does with them. */
#ifndef FATES_H
#define FATES_H

#include "pair.h"

/* A free cell; an object that a root reaches; such a one that was finalised, and is rescued; an object that nothing but itself
   holds, and is freed; such a one whose finalizer is still to run, and is queued. */
enum fate { UNUSED, KEPT, RESCUED, LOOSE, FINALIZABLE, FATES };

/* The only root that holds anything. */
enum { FATE_ROOT = 0 };

/* The part is named in reports. */
struct pair pair_of_fates(const char *part, size_t cells, const enum fate *fates);

/* COLLECT with the answer that it has to give. */
void collect_demanding(struct pair *pair, size_t freed, size_t queued);

size_t with_fate(const enum fate *fates, size_t cells, enum fate fate);

#endif
