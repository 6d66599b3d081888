/* Tables lent to the heap under test, which AddressSanitizer doesn't see: guard entries around them show what is written
   outside. */
#ifndef GUARDED_H
#define GUARDED_H

#include "heap.h"

/* Room for a table of so many entries, all of them 0, with the guards; malloc's. */
uint16_t *guarded_room(size_t len);

/* What is lent of the room; if it is empty, null in every second sequence. */
struct table guarded_table(uint16_t *room, size_t len);

/* The first entry in which tables of one length differ, or what stands no more around the second, whose room is given; in
   words, or null. */
const char *table_difference(const char *name, const struct table *ours, const struct table *theirs);
const char *guard_difference(const char *name, const struct table *theirs, const uint16_t *room);

#endif
