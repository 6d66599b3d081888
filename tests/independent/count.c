/* Raising counts, and "Taking off". */
#include "parts.h"

void incref(struct heap *heap, uint16_t ref)
{
    if (ref != 0)
        heap->count.at[ref - 1]++;
}

/* "The count falls by 1." Q-10 of document 02 leaves no rule for a count met at zero, since document 01's guard "would hide the
   very fault I fear": there the run ends. */
void lower(struct heap *heap, uint16_t ref)
{
    if (ref == 0)
        return;
    if (heap->count.at[ref - 1] == 0)
        met_at_zero(ref - 1);
    heap->count.at[ref - 1]--;
}

/* The cell joins the end of the queue with its artificial bump. */
void enqueue(struct run *run, size_t cell)
{
    struct heap *heap = run->heap;
    heap->queue.at[heap->control.at[LENGTH]++] = cell + 1;
    heap->count.at[cell]++;
    run->answer.queued++;
}

/* "At zero, an object with flags 1 joins the end of the queue at once and its count becomes 1. Any other cell joins a
   work list." */
static void refzero(struct run *run, size_t cell)
{
    const struct heap *heap = run->heap;
    if (heap->kind.at[cell] == OBJECT && heap->flags.at[cell] == FINALIZER)
        enqueue(run, cell);
    else
        run->work[run->joined++] = cell;
}

static void decref(struct run *run, uint16_t ref)
{
    lower(run->heap, ref);
    if (ref != 0 && run->heap->count.at[ref - 1] == 0)
        refzero(run, ref - 1);
}

/* "the cell's slots are taken off from slot 0 to 7, then the cell is all zeros" */
static void serve(struct run *run, size_t cell)
{
    for (size_t slot = 0; slot < SLOTS; slot++)
        decref(run, *slot_of(run->heap, cell, slot));
    free_and_list(run, cell);
}

/* "The work list is served oldest first ... This ends within the call." */
void take_off(struct run *run, uint16_t ref)
{
    decref(run, ref);
    while (run->served < run->joined)
        serve(run, run->work[run->served++]);
}
