#include "listing.h"

#include "coverage.h"
#include "parts.h"

static bool in_cell_order(const struct table *list, size_t freed)
{
    for (size_t i = 1; i < freed; i++)
        if (list->at[i - 1] >= list->at[i])
            return false;
    return true;
}

static void note_done(const struct table *list, enum op op, size_t freed)
{
    if (freed <= 1)
        coverage_landmark(freed == 0 ? LIST_OF_NONE : LIST_OF_ONE);
    else if (op == COLLECT)
        coverage_landmark(COLLECT_LISTS_SEVERAL);
    else
        coverage_landmark(in_cell_order(list, freed) ? LIST_IN_CELL_ORDER : LIST_IN_ANOTHER_ORDER);
    if (freed == list->len)
        coverage_landmark(LIST_OF_ALL);
}

/* The tables fit, so it is the list that doesn't. */
static void note_misfit(const struct heap *heap, const struct table *list)
{
    coverage_landmark(sound(heap) ? SIZE_BY_LIST_ALONE : SIZE_BY_LIST_BEFORE_DAMAGED);
    if (list->len == heap->kind.len + 1)
        coverage_landmark(LIST_ONE_TOO_LONG);
    if (list->len == heap->kind.len - 1)
        coverage_landmark(LIST_ONE_TOO_SHORT);
    if (list->len == 0)
        coverage_landmark(list->at == NULL ? LIST_NULL : LIST_WITHOUT_ENTRIES);
}

static void note_size(const struct heap *heap, const struct table *list)
{
    if (lengths_fit(heap))
        note_misfit(heap, list);
    else
        coverage_landmark(list->len == heap->kind.len ? SIZE_BY_TABLES_ALONE : SIZE_BY_TABLES_AND_LIST);
}

void note_list(const struct pair *pair, enum op op, struct answer answer)
{
    const struct table *list = &pair->freed.theirs;
    if (op == FRESH)
        return;
    if (answer.refused == DONE)
        note_done(list, op, answer.freed);
    else if (answer.refused == SIZE)
        note_size(&pair->ours, list);
    else
        coverage_landmark(REFUSED_WITH_LIST);
}

/* The first take-off can't free the cell that was finalised, which still has its bump; what it frees first is what the root
   held. */
void note_finish_list(const struct table *list, uint16_t head, uint16_t held)
{
    if (held == 0 || held == head || list->at[0] != held)
        return;
    for (size_t i = 1; i < list->len; i++)
        if (list->at[i] == head)
            coverage_landmark(FINISH_LISTS_BOTH);
}
