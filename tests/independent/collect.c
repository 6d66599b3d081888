/* "Collecting", with the mended rule of Q-2 in document 02. Marking goes in rounds, each of which marks what the cells of
   the round before hold. */
#include "parts.h"

/* Cells are listed in the order in which they were marked; the first `traced` of them have had their slots marked. */
struct marks {
    bool marked[CELLS_MAX];
    uint16_t list[CELLS_MAX];
    size_t listed, traced;
};

static void mark(struct marks *marks, uint16_t ref)
{
    if (ref == 0 || marks->marked[ref - 1])
        return;
    marks->marked[ref - 1] = true;
    marks->list[marks->listed++] = ref - 1;
}

static void mark_all(struct marks *marks, const struct table *references)
{
    for (size_t i = 0; i < references->len; i++)
        mark(marks, references->at[i]);
}

static void mark_slots(struct marks *marks, const struct heap *heap, size_t cell)
{
    for (size_t slot = 0; slot < SLOTS; slot++)
        mark(marks, *slot_of(heap, cell, slot));
}

static void trace_round(struct marks *marks, const struct heap *heap)
{
    size_t end = marks->listed;
    while (marks->traced < end)
        mark_slots(marks, heap, marks->list[marks->traced++]);
}

/* A shortest chain meets no cell twice, so as many rounds as there are cells come to the end of every chain. */
static void trace(struct marks *marks, const struct heap *heap)
{
    for (size_t round = 0; round < heap->kind.len; round++)
        trace_round(marks, heap);
}

static void mark_from(struct marks *marks, const struct heap *heap, const struct table *references)
{
    mark_all(marks, references);
    trace(marks, heap);
}

/* "Mark everything that roots and queue reach, the running cell included." The running cell heads the queue. */
static void mark_reached(struct marks *marks, const struct heap *heap)
{
    mark_from(marks, heap, &heap->roots);
    mark_from(marks, heap, &heap->queue);
}

static bool needs_finalizer(const struct heap *heap, const struct marks *marks, size_t cell)
{
    return !marks->marked[cell]
        && heap->kind.at[cell] == OBJECT
        && heap->flags.at[cell] == FINALIZER;
}

/* "Then every unmarked object with flags 1 joins the queue in order of cell number, its count rising by 1; this set is
   fixed before anything further is marked." */
static void enqueue_unmarked(struct run *run, const struct marks *marks)
{
    size_t n = run->heap->kind.len;
    for (size_t cell = 0; cell < n; cell++)
        if (needs_finalizer(run->heap, marks, cell))
            enqueue(run, cell);
}

static bool swept(const struct heap *heap, const struct marks *marks, size_t cell)
{
    return heap->kind.at[cell] != FREE && !marks->marked[cell];
}

/* "with no queueing and no cascade" */
static void lower_slots(struct heap *heap, size_t cell)
{
    for (size_t slot = 0; slot < SLOTS; slot++)
        lower(heap, *slot_of(heap, cell, slot));
}

/* "first the references of all of them come off their targets' counts" */
static void sweep_references(struct run *run, const struct marks *marks)
{
    for (size_t cell = 0; cell < run->heap->kind.len; cell++)
        if (swept(run->heap, marks, cell))
            lower_slots(run->heap, cell);
}

/* "only after that do all of them become all zeros". Q-5 has them listed "in cell order". */
static void sweep_cells(struct run *run, const struct marks *marks)
{
    for (size_t cell = 0; cell < run->heap->kind.len; cell++)
        if (swept(run->heap, marks, cell))
            free_and_list(run, cell);
}

/* "Each marked cell with flags 3 gets flags 1 again: it was rescued." */
static void rescue(struct heap *heap, const struct marks *marks)
{
    for (size_t cell = 0; cell < heap->kind.len; cell++)
        if (marks->marked[cell] && heap->flags.at[cell] == (FINALIZER | FINALISED))
            heap->flags.at[cell] = FINALIZER;
}

/* "Mark these and what they reach": what stood in the queue before is marked already.
   "if the queue held anything when COLLECT began, no flags 3 become 1 in that COLLECT." What joins the queue in this
   call joins it later, and does not count. */
void collect(struct run *run)
{
    struct heap *heap = run->heap;
    struct marks marks = { 0 };
    bool queue_was_empty = heap->control.at[LENGTH] == 0;
    mark_reached(&marks, heap);
    enqueue_unmarked(run, &marks);
    mark_from(&marks, heap, &heap->queue);
    sweep_references(run, &marks);
    sweep_cells(run, &marks);
    if (queue_was_empty)
        rescue(heap, &marks);
}
