/* Sound tables that no short list of calls would make: every cell, reference and queue entry is drawn. */
#include "made.h"

#include "random.h"

#include <stdbool.h>
#include <string.h>

static const unsigned densities[] = { 1, 4, 15, 50 };

static uint16_t any_used(const struct heap *heap)
{
    size_t cell = below(heap->kind.len);
    return heap->kind.at[cell] == FREE ? 0 : cell + 1;
}

static void sow(struct heap *heap, uint16_t *at, size_t len, unsigned percent)
{
    for (size_t i = 0; i < len; i++)
        at[i] = chance(percent) ? any_used(heap) : 0;
}

static void make_cells(struct heap *heap)
{
    static const uint16_t object_flags[] = { 0, FINALIZER, FINALIZER | FINALISED };
    for (size_t cell = 0; cell < heap->kind.len; cell++) {
        heap->kind.at[cell] = chance(50) ? OBJECT : below(4);
        heap->flags.at[cell] = heap->kind.at[cell] == OBJECT ? object_flags[below(3)] : 0;
    }
}

/* Objects in random order, each holding the next one: a chain that no scan in cell order follows at once. The entry given
   holds the first; the one handed back is the last one's. */
static uint16_t *thread_objects(struct heap *heap, uint16_t *entry)
{
    uint16_t order[CELLS_MAX] = { 0 };
    shuffle(order, heap->kind.len);
    for (size_t i = 0; i < heap->kind.len; i++) {
        if (heap->kind.at[order[i]] != OBJECT)
            continue;
        *entry = order[i] + 1;
        entry = &heap->slots.at[SLOTS * order[i] + SLOTS - 1];
    }
    return entry;
}

static void sow_slots(struct heap *heap, unsigned percent)
{
    for (size_t cell = 0; cell < heap->kind.len; cell++)
        if (heap->kind.at[cell] == OBJECT)
            sow(heap, &heap->slots.at[SLOTS * cell], SLOTS, percent);
}

static void make_references(struct heap *heap)
{
    unsigned percent = densities[below(4)];
    sow(heap, heap->roots.at, ROOTS, heap->kind.len < 10 ? 1 + percent / 15 : percent);
    sow_slots(heap, percent);
    if (chance(30))
        thread_objects(heap, &heap->roots.at[0]);
}

static void make_ring(struct heap *heap)
{
    uint16_t first = 0;
    sow_slots(heap, densities[below(4)]);
    uint16_t *last = thread_objects(heap, &first);
    *last = first;
}

/* A share of the objects with flags 1, from a random cell on, in falling or rising order. */
static void make_queue(struct heap *heap)
{
    size_t n = heap->kind.len, start = below(n), stride = chance(50) ? 1 : n - 1 + (n == 1);
    unsigned percent = below(101);
    for (size_t i = 0; i < n; i++) {
        size_t cell = (start + i * stride) % n;
        if (heap->flags.at[cell] == FINALIZER && chance(percent))
            heap->queue.at[heap->control.at[LENGTH]++] = cell + 1;
    }
    if (heap->control.at[LENGTH] != 0 && chance(50))
        heap->control.at[RUNNING] = 1 + below(chance(50) ? 4 : ROOTS);
}

static void add_up(struct heap *heap, const struct table *references)
{
    for (size_t i = 0; i < references->len; i++)
        if (references->at[i] != 0)
            heap->count.at[references->at[i] - 1]++;
}

static void make_counts(struct heap *heap)
{
    memset(heap->count.at, 0, heap->count.len * sizeof *heap->count.at);
    add_up(heap, &heap->roots);
    add_up(heap, &heap->slots);
    add_up(heap, &heap->queue);
}

/* A used cell that nothing refers to may not stand; without it others may lose their last reference. */
static bool drop_unreferenced(struct heap *heap)
{
    bool dropped = false;
    make_counts(heap);
    for (size_t cell = 0; cell < heap->kind.len; cell++)
        if (heap->kind.at[cell] != FREE && heap->count.at[cell] == 0) {
            heap->kind.at[cell] = FREE;
            heap->flags.at[cell] = 0;
            memset(&heap->slots.at[SLOTS * cell], 0, SLOTS * sizeof *heap->slots.at);
            dropped = true;
        }
    return dropped;
}

static void drop_all_unreferenced(struct heap *heap)
{
    while (drop_unreferenced(heap))
        ;
}

void make_sound(struct heap *heap)
{
    make_cells(heap);
    make_references(heap);
    make_queue(heap);
    drop_all_unreferenced(heap);
}

void make_loose(struct heap *heap)
{
    make_cells(heap);
    make_ring(heap);
    drop_all_unreferenced(heap);
}

void make_plain(struct heap *heap)
{
    make_cells(heap);
    memset(heap->flags.at, 0, heap->flags.len * sizeof *heap->flags.at);
    make_references(heap);
    drop_all_unreferenced(heap);
}
