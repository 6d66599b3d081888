/* Lengths that fit no heap. */
#ifndef MISFITS_H
#define MISFITS_H

#include "tables.h"

enum { WRONG_LENGTHS = 7 };

/* Lengths of a table that don't fit, where this one does. Longer before shorter: who leaves out the check of a longer table
   doesn't read outside it. */
void wrong_lengths(size_t wrong[WRONG_LENGTHS], size_t fitting);

/* A random one, mostly near the one that fits. */
size_t misfitting_length(size_t fitting);

typedef void with_lengths(const size_t len[TABLES]);

/* Calls it with no cells, with too many, with every table empty, and with each table off, of heaps of many sizes. */
void each_misfit(with_lengths *with);

#endif
