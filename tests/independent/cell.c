#include "parts.h"

/* The number of cells if none is free. */
size_t lowest_free(const struct heap *heap)
{
    size_t cell = 0;
    while (cell < heap->kind.len && heap->kind.at[cell] != FREE)
        cell++;
    return cell;
}

uint16_t *slot_of(const struct heap *heap, size_t cell, size_t slot)
{
    return &heap->slots.at[SLOTS * cell + slot];
}

static void empty_slots(struct heap *heap, size_t cell)
{
    for (size_t slot = 0; slot < SLOTS; slot++)
        *slot_of(heap, cell, slot) = 0;
}

/* "then the cell is all zeros". Q-3 of document 02: "the freeing step should write no slot of a string or buffer: on any
   tables they stay as they were". The kind that decides is the one with which the step begins. Q-5: "The freeing step has to
   say which cell it freed": by its reference. */
uint16_t free_cell(struct heap *heap, size_t cell)
{
    uint16_t kind = heap->kind.at[cell];
    heap->kind.at[cell] = FREE;
    heap->flags.at[cell] = 0;
    heap->count.at[cell] = 0;
    if (kind != STRING && kind != BUFFER)
        empty_slots(heap, cell);
    return cell + 1;
}

/* "in the order in which they became zeros" */
void free_and_list(struct run *run, size_t cell)
{
    run->freed[run->listed++] = free_cell(run->heap, cell);
}
