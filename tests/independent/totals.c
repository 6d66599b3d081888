#include "totals.h"

#include "random.h"

uint64_t *total_at(struct totals *totals, size_t place)
{
    uint64_t *const numbers[TOTALS] = { &totals->done, &totals->refused, &totals->freed, &totals->queued };
    return numbers[place];
}

uint64_t total_of(struct totals totals, size_t place)
{
    return *total_at(&totals, place);
}

uint64_t total_limit(size_t len)
{
    return UINT64_MAX - 1024 * (uint64_t)len;
}

static uint64_t some_border(size_t len)
{
    const uint64_t borders[] = { 256, 65536, (uint64_t)1 << 31, (uint64_t)1 << 32, (uint64_t)1 << 63, total_limit(len) };
    return borders[below(sizeof borders / sizeof *borders)];
}

/* The last two bits tell the places apart. */
struct totals some_totals(size_t len)
{
    struct totals totals;
    for (size_t place = 0; place < TOTALS; place++) {
        uint64_t number = chance(20) ? below(100) + TOTALS : some_border(len) - below(200);
        *total_at(&totals, place) = number / TOTALS * TOTALS - TOTALS + place;
    }
    return totals;
}
