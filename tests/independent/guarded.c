#include "guarded.h"

#include "pair.h"

#include <stdio.h>
#include <stdlib.h>
#include <string.h>

enum { GUARDS = 32, GUARD = 0xa5c3, WORDS = 120 };

uint16_t *guarded_room(size_t len)
{
    size_t all = len + 2 * GUARDS;
    uint16_t *room = malloc(all * sizeof *room);
    for (size_t i = 0; i < all; i++)
        room[i] = i < GUARDS || i >= GUARDS + len ? GUARD : 0;
    return room;
}

struct table guarded_table(uint16_t *room, size_t len)
{
    bool null = len == 0 && pair_lends_null();
    return (struct table){ null ? NULL : room + GUARDS, len };
}

const char *table_difference(const char *name, const struct table *ours, const struct table *theirs)
{
    static char words[WORDS];
    size_t i = 0;
    if (ours->len == 0 || memcmp(ours->at, theirs->at, ours->len * sizeof *ours->at) == 0)
        return NULL;
    while (ours->at[i] == theirs->at[i])
        i++;
    snprintf(words, sizeof words, "first differing entry: %s %zu, independent %u, under test %u", name, i, ours->at[i],
             theirs->at[i]);
    return words;
}

static bool guards_stand(const uint16_t *room, size_t len)
{
    for (size_t i = 0; i < GUARDS; i++)
        if (room[i] != GUARD || room[GUARDS + len + i] != GUARD)
            return false;
    return true;
}

const char *guard_difference(const char *name, const struct table *theirs, const uint16_t *room)
{
    static char words[WORDS];
    if (guards_stand(room, theirs->len))
        return NULL;
    snprintf(words, sizeof words, "the heap under test wrote outside the table %s", name);
    return words;
}
