#include "singles.h"

#include "lines.h"
#include "tables.h"
#include "tested.h"

#include <stdlib.h>

/* "a record whose call number is not 1 to 8, or with an unused number above 0, is LINE": there is no call to make. The calls
   behave as if each were lent a table for the freed cells that fits. */
static struct answer call_singly(struct heap *heap, struct record record)
{
    const unsigned field[FIELDS] = { record.call, record.first, record.second, record.third };
    uint16_t room[CELLS_MAX];
    const struct table freed = { room, heap->kind.len };
    if (!is_call(field))
        return (struct answer){ .refused = LINE };
    return tested_call(heap, freed, record.call, record.first, record.second, record.third);
}

struct singles singles_of(struct heap *heap, struct records records, struct totals totals)
{
    struct singles singles = { exact_copy(heap), { malloc(records.len * sizeof *singles.answers.at), records.len }, totals };
    for (size_t i = 0; i < records.len; i++) {
        singles.answers.at[i] = call_singly(&singles.heap, records.at[i]);
        add_answer(&singles.totals, singles.answers.at[i]);
    }
    return singles;
}

void singles_free(struct singles *singles)
{
    exact_heap_free(&singles->heap);
    free(singles->answers.at);
}
