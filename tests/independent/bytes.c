#include "bytes.h"

#include "pair.h"

#include <stdlib.h>
#include <string.h>

enum { GUARDS = 64 };

struct bytes bytes_filled(size_t len, uint8_t fill)
{
    struct bytes bytes = { malloc(len + 2 * GUARDS), len };
    memset(bytes.room, fill, len + 2 * GUARDS);
    return bytes;
}

struct bytes bytes_of(struct text text)
{
    struct bytes bytes = bytes_filled(text.len, '\n');
    bytes_put(&bytes, text.at, text.len);
    return bytes;
}

void bytes_free(struct bytes *bytes)
{
    free(bytes->room);
}

uint8_t *bytes_lent(const struct bytes *bytes)
{
    return bytes->len == 0 && pair_lends_null() ? NULL : bytes->room + GUARDS;
}

void bytes_put(struct bytes *bytes, const void *from, size_t len)
{
    if (len > 0)
        memcpy(bytes->room + GUARDS, from, len);
}

bool bytes_same(const struct bytes *a, const struct bytes *b)
{
    return a->len == b->len && memcmp(a->room, b->room, a->len + 2 * GUARDS) == 0;
}
