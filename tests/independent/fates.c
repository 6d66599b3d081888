#include "fates.h"

#include "holding.h"
#include "parts.h"

/* The cells that the root reaches, in the order in which they were hung up. */
struct tree {
    uint16_t cells[CELLS_MAX];
    size_t count;
};

/* The root holds the first cell, and each cell the next eight that nobody holds yet. The tree has five levels at most, so that
   marking notes nothing. */
static void hang_up(struct heap *heap, struct tree *tree, size_t cell)
{
    uint16_t *entry = &heap->roots.at[FATE_ROOT];
    if (tree->count != 0)
        entry = slot_of(heap, tree->cells[(tree->count - 1) / SLOTS], (tree->count - 1) % SLOTS);
    hold(heap, entry, cell);
    tree->cells[tree->count++] = cell;
}

static const uint16_t flags_of[FATES] = { [RESCUED] = FINALIZER | FINALISED, [FINALIZABLE] = FINALIZER };

static void make_object(struct heap *heap, struct tree *tree, size_t cell, enum fate fate)
{
    heap->kind.at[cell] = OBJECT;
    heap->flags.at[cell] = flags_of[fate];
    if (fate == KEPT || fate == RESCUED)
        hang_up(heap, tree, cell);
    else
        hold(heap, slot_of(heap, cell, cell % SLOTS), cell);
}

static void make_fates(struct heap *heap, const enum fate *fates)
{
    struct tree tree = { .count = 0 };
    for (size_t cell = 0; cell < heap->kind.len; cell++)
        if (fates[cell] != UNUSED)
            make_object(heap, &tree, cell, fates[cell]);
}

struct pair pair_of_fates(const char *part, size_t cells, const enum fate *fates)
{
    pair_sequence(part);
    struct pair pair = pair_of(cells);
    make_fates(&pair.ours, fates);
    pair_share(&pair);
    return pair;
}

void collect_demanding(struct pair *pair, size_t freed, size_t queued)
{
    struct answer answer = pair_call(pair, COLLECT, 0, 0, 0);
    demand(answer.refused == DONE && answer.freed == freed && answer.queued == queued, "COLLECT frees and queues what it has to");
}

size_t with_fate(const enum fate *fates, size_t cells, enum fate fate)
{
    size_t count = 0;
    for (size_t cell = 0; cell < cells; cell++)
        count += fates[cell] == fate;
    return count;
}
