/* Sound tables made directly, not by calls. */
#ifndef MADE_H
#define MADE_H

#include "heap.h"

/* The tables are all zeros before, and their lengths fit. */
void make_sound(struct heap *heap);

/* The objects stand in a ring that neither roots nor queue reach: the next COLLECT queues those whose finalizer is still
   to run, and these reach the finalised ones. */
void make_loose(struct heap *heap);

/* No object has a finalizer: what roots don't reach, nothing keeps. */
void make_plain(struct heap *heap);

#endif
