#include "holding.h"

#include "parts.h"

void hold(struct heap *heap, uint16_t *entry, size_t cell)
{
    *entry = cell + 1;
    incref(heap, *entry);
}
