#include "freed.h"

#include "coverage.h"

#include <string.h>

/* What the landmarks tell apart among freed cells, and among those that freed cells held: with one slot or with several. */
enum sort { A_STRING, A_BUFFER, A_FULL_OBJECT, ONE_FREED, SEVERAL_FREED, ONE_USED, SEVERAL_USED, SORTS, OTHER = SORTS };

static const enum landmark by_cascade[SORTS] = {
    CASCADE_FREES_STRING, CASCADE_FREES_BUFFER, CASCADE_FREES_FULL_OBJECT, CASCADE_TAKES_ONE_OFF_FREED,
    CASCADE_TAKES_SEVERAL_OFF_FREED, CASCADE_TAKES_ONE_OFF_USED, CASCADE_TAKES_SEVERAL_OFF_USED,
};
static const enum landmark by_collect[SORTS] = {
    COLLECT_FREES_STRING, COLLECT_FREES_BUFFER, COLLECT_FREES_FULL_OBJECT, COLLECT_TAKES_ONE_OFF_FREED,
    COLLECT_TAKES_SEVERAL_OFF_FREED, COLLECT_TAKES_ONE_OFF_USED, COLLECT_TAKES_SEVERAL_OFF_USED,
};

void before_call(struct before *before, const struct heap *heap)
{
    memcpy(before->kind, heap->kind.at, heap->kind.len * sizeof *before->kind);
    memcpy(before->slots, heap->slots.at, heap->slots.len * sizeof *before->slots);
}

static bool was_freed(const struct before *before, const struct heap *heap, size_t cell)
{
    return before->kind[cell] != FREE && heap->kind.at[cell] == FREE;
}

static size_t freed_cells(const struct before *before, const struct heap *heap)
{
    size_t freed = 0;
    for (size_t cell = 0; cell < heap->kind.len; cell++)
        freed += was_freed(before, heap, cell);
    return freed;
}

/* Whether a reference names a freed cell that was not listed so far. */
static bool lists_another(bool listed[CELLS_MAX], uint16_t ref, const struct before *before, const struct heap *heap)
{
    if (ref == 0 || ref > heap->kind.len || listed[ref - 1])
        return false;
    listed[ref - 1] = true;
    return was_freed(before, heap, ref - 1);
}

/* As many entries as there are freed cells, each of another one, have them all. */
bool lists_freed(const struct table *list, const struct before *before, const struct heap *heap)
{
    bool listed[CELLS_MAX] = { false };
    size_t freed = freed_cells(before, heap);
    for (size_t i = 0; i < list->len; i++)
        if (i < freed ? !lists_another(listed, list->at[i], before, heap) : list->at[i] != 0)
            return false;
    return true;
}

static bool all_full(const uint16_t slots[SLOTS])
{
    for (size_t slot = 0; slot < SLOTS; slot++)
        if (slots[slot] == 0)
            return false;
    return true;
}

static enum sort sort_of(const struct before *before, size_t cell)
{
    switch (before->kind[cell]) {
    case STRING:
        return A_STRING;
    case BUFFER:
        return A_BUFFER;
    default:
        return all_full(&before->slots[SLOTS * cell]) ? A_FULL_OBJECT : OTHER;
    }
}

/* How many slots of freed cells held each cell; no freed cell's slots are written by the call before it is freed. */
static void find_held(unsigned held[CELLS_MAX], const struct before *before, const struct heap *heap)
{
    for (size_t i = 0; i < heap->slots.len; i++)
        if (before->slots[i] != 0 && was_freed(before, heap, i / SLOTS))
            held[before->slots[i] - 1]++;
}

static enum sort sort_of_held(unsigned held, bool freed)
{
    static const enum sort sorts[2][2] = { { ONE_USED, SEVERAL_USED }, { ONE_FREED, SEVERAL_FREED } };
    return held == 0 ? OTHER : sorts[freed][held > 1];
}

/* In a sweep the kind of every freed cell counts; elsewhere of those that a cell freed by the same call held. */
static void find_sorts(bool met[SORTS + 1], const struct before *before, const struct heap *heap, enum op op)
{
    unsigned held[CELLS_MAX] = { 0 };
    find_held(held, before, heap);
    for (size_t cell = 0; cell < heap->kind.len; cell++) {
        bool freed = was_freed(before, heap, cell);
        met[sort_of_held(held[cell], freed)] = true;
        if (freed && (op == COLLECT || held[cell] != 0))
            met[sort_of(before, cell)] = true;
    }
}

void note_freed(const struct before *before, const struct heap *heap, enum op op)
{
    bool met[SORTS + 1] = { false };
    find_sorts(met, before, heap, op);
    for (int sort = 0; sort < SORTS; sort++)
        if (met[sort])
            coverage_landmark(op == COLLECT ? by_collect[sort] : by_cascade[sort]);
}
