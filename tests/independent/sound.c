/* "A sound heap": each of the six rules is a function, and each of their clauses a line. The lengths fit N. */
#include "parts.h"

static bool every_cell(const struct heap *heap, bool (*holds)(const struct heap *, size_t))
{
    for (size_t cell = 0; cell < heap->kind.len; cell++)
        if (!holds(heap, cell))
            return false;
    return true;
}

static bool slots_empty(const struct heap *heap, size_t cell)
{
    for (size_t slot = 0; slot < SLOTS; slot++)
        if (*slot_of(heap, cell, slot) != 0)
            return false;
    return true;
}

/* "A free cell has flags, count and all eight slots 0." */
static bool free_is_blank(const struct heap *heap, size_t cell)
{
    if (heap->flags.at[cell] != 0)
        return false;
    if (heap->count.at[cell] != 0)
        return false;
    return slots_empty(heap, cell);
}

static bool cell_rule_1(const struct heap *heap, size_t cell)
{
    if (heap->kind.at[cell] > BUFFER)
        return false;
    return heap->kind.at[cell] != FREE || free_is_blank(heap, cell);
}

/* "Kinds are 0 to 3. A free cell has flags, count and all eight slots 0." */
static bool rule_1(const struct heap *heap)
{
    return every_cell(heap, cell_rule_1);
}

static bool plain_data(const struct heap *heap, size_t cell)
{
    return heap->flags.at[cell] == 0
        && slots_empty(heap, cell);
}

static bool object_flags(const struct heap *heap, size_t cell)
{
    uint16_t flags = heap->flags.at[cell];
    return flags == 0 || flags == FINALIZER || flags == (FINALIZER | FINALISED);
}

static bool cell_rule_2(const struct heap *heap, size_t cell)
{
    switch (heap->kind.at[cell]) {
    case STRING:
        return plain_data(heap, cell);
    case BUFFER:
        return plain_data(heap, cell);
    case OBJECT:
        return object_flags(heap, cell);
    default:
        return true;
    }
}

/* "Strings and buffers have flags 0 and empty slots. Objects have flags 0, 1 or 3." */
static bool rule_2(const struct heap *heap)
{
    return every_cell(heap, cell_rule_2);
}

static bool empty_or_used(const struct heap *heap, uint16_t ref)
{
    if (ref == 0)
        return true;
    return ref <= heap->kind.len
        && heap->kind.at[ref - 1] != FREE;
}

static bool all_empty_or_used(const struct heap *heap, const struct table *references)
{
    for (size_t i = 0; i < references->len; i++)
        if (!empty_or_used(heap, references->at[i]))
            return false;
    return true;
}

/* "Each reference in roots, slots and queue is empty or names a used cell." */
static bool rule_3(const struct heap *heap)
{
    return all_empty_or_used(heap, &heap->roots)
        && all_empty_or_used(heap, &heap->slots)
        && all_empty_or_used(heap, &heap->queue);
}

/* How often each cell is named. */
struct tally {
    size_t times[CELLS_MAX];
};

/* A reference above N names no cell; that it stands here at all is rule 3's matter. */
static void tally(struct tally *tally, const struct heap *heap, const struct table *references)
{
    for (size_t i = 0; i < references->len; i++) {
        uint16_t ref = references->at[i];
        if (ref != 0 && ref <= heap->kind.len)
            tally->times[ref - 1]++;
    }
}

/* "entries below it are ... objects with flags 1" */
static bool waits(const struct heap *heap, uint16_t ref)
{
    return ref != 0
        && heap->kind.at[ref - 1] == OBJECT
        && heap->flags.at[ref - 1] == FINALIZER;
}

static bool queue_entries(const struct heap *heap)
{
    for (size_t i = 0; i < heap->queue.len; i++) {
        uint16_t ref = heap->queue.at[i];
        bool below = i < heap->control.at[LENGTH];
        if (below && !waits(heap, ref))
            return false;
        if (!below && ref != 0)
            return false;
    }
    return true;
}

static bool queue_distinct(const struct heap *heap)
{
    struct tally named = { 0 };
    tally(&named, heap, &heap->queue);
    for (size_t cell = 0; cell < heap->kind.len; cell++)
        if (named.times[cell] > 1)
            return false;
    return true;
}

/* "The queue length is at most N; entries below it are distinct objects with flags 1; entries from it on are 0." */
static bool rule_4(const struct heap *heap)
{
    return heap->control.at[LENGTH] <= heap->kind.len
        && queue_entries(heap)
        && queue_distinct(heap);
}

/* "The running root is 0, or 1 to 64 with a queue that isn't empty." */
static bool rule_5(const struct heap *heap)
{
    if (heap->control.at[RUNNING] == 0)
        return true;
    return heap->control.at[RUNNING] <= ROOTS
        && heap->control.at[LENGTH] != 0;
}

/* "Every used cell's count equals the root entries that hold it, plus the slots that hold it, plus 1 if it is queued
   (003: the artificial bump); and it is at least 1." */
static bool rule_6(const struct heap *heap)
{
    struct tally held = { 0 }, queued = { 0 };
    tally(&held, heap, &heap->roots);
    tally(&held, heap, &heap->slots);
    tally(&queued, heap, &heap->queue);
    for (size_t cell = 0; cell < heap->kind.len; cell++) {
        size_t bump = queued.times[cell] != 0;
        if (heap->kind.at[cell] == FREE)
            continue;
        if (heap->count.at[cell] != held.times[cell] + bump)
            return false;
        if (heap->count.at[cell] < 1)
            return false;
    }
    return true;
}

bool sound(const struct heap *heap)
{
    return rule_1(heap)
        && rule_2(heap)
        && rule_3(heap)
        && rule_4(heap)
        && rule_5(heap)
        && rule_6(heap);
}
