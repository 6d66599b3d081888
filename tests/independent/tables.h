/* The seven tables by number, and room for them. */
#ifndef TABLES_H
#define TABLES_H

#include "heap.h"

enum table_number { T_KIND, T_FLAGS, T_COUNT, T_SLOTS, T_ROOTS, T_QUEUE, T_CONTROL, TABLES };

extern const char *const table_names[TABLES];

struct table *table_of(struct heap *heap, enum table_number number);

/* The lengths that fit n cells. */
void fitting_lengths(size_t len[TABLES], size_t n);

/* Room of exactly the lengths wanted, so that AddressSanitizer sees an access outside. Empty tables are null. */
struct heap exact_heap(const size_t len[TABLES]);
void exact_heap_free(struct heap *heap);

/* The same tables in room of their own. */
struct heap exact_copy(struct heap *heap);

/* The same lengths on both sides. */
void copy_tables(struct heap *to, struct heap *from);

#endif
