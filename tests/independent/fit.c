#include "parts.h"

/* SIZE: "N is not 1 to 1,024, or the tables' lengths don't fit N" */
bool lengths_fit(const struct heap *heap)
{
    size_t n = heap->kind.len;
    bool fit = 1 <= n
        && n <= CELLS_MAX
        && heap->flags.len == n
        && heap->count.len == n
        && heap->slots.len == SLOTS * n
        && heap->roots.len == ROOTS
        && heap->queue.len == n
        && heap->control.len == CONTROL;
    return fit;
}
