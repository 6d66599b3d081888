#include "tables.h"

#include <stdlib.h>
#include <string.h>

const char *const table_names[TABLES] = { "kind", "flags", "count", "slots", "roots", "queue", "control" };

struct table *table_of(struct heap *heap, enum table_number number)
{
    struct table *const tables[TABLES] = { &heap->kind, &heap->flags, &heap->count, &heap->slots,
                                           &heap->roots, &heap->queue, &heap->control };
    return tables[number];
}

void fitting_lengths(size_t len[TABLES], size_t n)
{
    const size_t fitting[TABLES] = { n, n, n, SLOTS * n, ROOTS, n, CONTROL };
    memcpy(len, fitting, sizeof fitting);
}

struct heap exact_heap(const size_t len[TABLES])
{
    struct heap heap;
    for (int t = 0; t < TABLES; t++) {
        uint16_t *at = len[t] == 0 ? NULL : calloc(len[t], sizeof *at);
        *table_of(&heap, t) = (struct table){ at, len[t] };
    }
    return heap;
}

void exact_heap_free(struct heap *heap)
{
    for (int t = 0; t < TABLES; t++)
        free(table_of(heap, t)->at);
}

struct heap exact_copy(struct heap *heap)
{
    size_t len[TABLES];
    for (int t = 0; t < TABLES; t++)
        len[t] = table_of(heap, t)->len;
    struct heap copy = exact_heap(len);
    copy_tables(&copy, heap);
    return copy;
}

void copy_tables(struct heap *to, struct heap *from)
{
    for (int t = 0; t < TABLES; t++) {
        struct table *target = table_of(to, t);
        if (target->len != 0)
            memcpy(target->at, table_of(from, t)->at, target->len * sizeof *target->at);
    }
}
