#include "freed_list.h"

#include "guarded.h"
#include "random.h"

#include <stdlib.h>
#include <string.h>

static const char name[] = "freed";

/* Any numbers, those that might be a list of so many cells, or zeros; in room of exactly the length, so that AddressSanitizer
   sees an access outside. */
static struct table drawn(size_t len, size_t cells)
{
    const size_t limits[] = { 65536, cells + 2, 1 };
    size_t limit = limits[below(sizeof limits / sizeof *limits)];
    struct table table = { len == 0 ? NULL : malloc(len * sizeof *table.at), len };
    for (size_t i = 0; i < len; i++)
        table.at[i] = below(limit);
    return table;
}

struct freed_list freed_list_of(size_t len, size_t cells)
{
    struct freed_list list = { .ours = drawn(len, cells), .guarded = guarded_room(len) };
    list.theirs = guarded_table(list.guarded, len);
    if (len != 0)
        memcpy(list.theirs.at, list.ours.at, len * sizeof *list.ours.at);
    return list;
}

void freed_list_free(struct freed_list *list)
{
    free(list->ours.at);
    free(list->guarded);
}

const char *freed_list_difference(const struct freed_list *list)
{
    const char *difference = table_difference(name, &list->ours, &list->theirs);
    return difference != NULL ? difference : guard_difference(name, &list->theirs, list->guarded);
}
