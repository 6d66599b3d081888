/* The numbers are poured out over the heaps one after another. The first heaps have most cells and those below zero, so that
   there are most entries to hold these; lost ones go to the other heaps first. */
#include "boxes.h"

#include "aims.h"
#include "random.h"
#include "tables.h"

#include <string.h>

enum { ENTRIES_MAX = ROOTS + (SLOTS + 1) * CELLS_MAX, COUNT_MAX = 65535 };

/* What is left when so much of the amount as has room is added to the share. */
static size_t pour(size_t amount, size_t *into, size_t room)
{
    size_t more = amount < room ? amount : room;
    *into += more;
    return amount - more;
}

static size_t entries_in(const struct share *share)
{
    return ROOTS + (SLOTS + 1) * share->cells;
}

static size_t share_cells(struct share *shares, size_t heaps, size_t cells)
{
    size_t rest = cells - heaps;
    for (size_t i = 0; i < heaps; i++) {
        shares[i] = (struct share){ .cells = 1 };
        rest = pour(rest, &shares[i].cells, CELLS_MAX - 1);
    }
    return rest;
}

/* The first `some` heaps have a cell below zero each. */
static size_t share_below(struct share *shares, size_t some, size_t below_zero)
{
    size_t rest = below_zero - some;
    for (size_t i = 0; i < some; i++) {
        shares[i].below = 1;
        rest = pour(rest, &shares[i].below, shares[i].cells - 1);
    }
    return rest;
}

static size_t share_above(struct share *shares, size_t heaps, size_t above_zero)
{
    size_t rest = above_zero;
    for (size_t i = 0; i < heaps; i++)
        rest = pour(rest, &shares[i].above, shares[i].cells - shares[i].below);
    return rest;
}

/* An entry is left for each cell below zero. */
static size_t share_lost(struct share *shares, size_t some, size_t heaps, size_t lost)
{
    size_t rest = lost;
    for (size_t i = 0; i < heaps; i++) {
        struct share *share = &shares[(some + i) % heaps];
        rest = pour(rest, &share->lost, entries_in(share) - share->below);
    }
    return rest;
}

static size_t room_for_holding(const struct share *shares, size_t some)
{
    size_t room = 0;
    for (size_t i = 0; i < some; i++)
        room += entries_in(&shares[i]) - shares[i].lost;
    return room;
}

static size_t share_holding(struct share *shares, size_t some, size_t holding)
{
    size_t rest = holding;
    for (size_t i = 0; i < some; i++)
        rest = pour(rest, &shares[i].holding, shares[i].below);
    for (size_t i = 0; i < some; i++)
        rest = pour(rest, &shares[i].holding, entries_in(&shares[i]) - shares[i].lost - shares[i].holding);
    return rest;
}

static size_t share_stored(struct share *shares, size_t heaps, size_t stored)
{
    size_t rest = stored;
    for (size_t i = 0; i < heaps; i++)
        rest = pour(rest, &shares[i].stored, shares[i].above);
    for (size_t i = 0; i < heaps; i++)
        rest = pour(rest, &shares[i].stored, (COUNT_MAX - 1) * shares[i].above);
    return rest;
}

/* The sum is what cells above zero have stored, less the entries that hold those below. Both may rise together. */
static bool share_sum(struct share *shares, size_t some, size_t heaps, const struct row *totals)
{
    int64_t below_zero = totals->below, above_zero = totals->above, room = room_for_holding(shares, some);
    int64_t least = above_zero - totals->sum, most = COUNT_MAX * above_zero - totals->sum;
    least = least < below_zero ? below_zero : least;
    most = most > room ? room : most;
    if (least > most)
        return false;
    int64_t holding = near_ends(least, most);
    return share_holding(shares, some, holding) == 0 && share_stored(shares, heaps, totals->sum + holding) == 0;
}

bool share_out(const struct report *report, struct share shares[HEAPS_MAX])
{
    const struct row *totals = &report->totals;
    size_t heaps = report->heaps - totals->size, some = totals->below < heaps ? totals->below : heaps;
    return share_cells(shares, heaps, totals->below + totals->at + totals->above) == 0
        && share_below(shares, some, totals->below) == 0
        && share_above(shares, heaps, totals->above) == 0
        && share_lost(shares, some, heaps, totals->lost) == 0
        && share_sum(shares, some, heaps, totals);
}

/* A heap under way: its entries and its cells in random order, the cells below zero first and then those above. */
struct making {
    struct heap *heap;
    uint16_t *entries[ENTRIES_MAX], cells[CELLS_MAX];
    size_t used; /* entries */
};

static size_t list_entries(uint16_t **entries, const struct table *table)
{
    for (size_t i = 0; i < table->len; i++)
        entries[i] = &table->at[i];
    return table->len;
}

static void shuffle_entries(uint16_t **entries, size_t len)
{
    for (size_t i = 1; i < len; i++) {
        size_t j = below(i + 1);
        uint16_t *entry = entries[i];
        entries[i] = entries[j];
        entries[j] = entry;
    }
}

static void shuffle_cells(uint16_t *cells, size_t n)
{
    for (size_t i = 0; i < n; i++) {
        size_t j = below(i + 1);
        cells[i] = cells[j];
        cells[j] = i;
    }
}

static void begin(struct making *making, struct heap *heap)
{
    size_t len = list_entries(making->entries, &heap->roots);
    len += list_entries(making->entries + len, &heap->slots);
    len += list_entries(making->entries + len, &heap->queue);
    shuffle_entries(making->entries, len);
    shuffle_cells(making->cells, heap->kind.len);
    making->heap = heap;
    making->used = 0;
}

static void put(struct making *making, uint16_t ref)
{
    *making->entries[making->used++] = ref;
}

static void hold_those_below(struct making *making, const struct share *share)
{
    for (size_t i = 0; i < share->holding; i++)
        put(making, making->cells[i < share->below ? i : below(share->below)] + 1);
}

static void lose(struct making *making, size_t lost)
{
    size_t n = making->heap->kind.len;
    for (size_t i = 0; i < lost; i++)
        put(making, chance(50) ? n + 1 : n + 1 + below(65535 - n));
}

static void store(struct making *making, const struct share *share)
{
    size_t rest = share->stored - share->above;
    for (size_t i = 0; i < share->above; i++) {
        size_t stored = 1;
        rest = pour(rest, &stored, COUNT_MAX - 1);
        making->heap->count.at[making->cells[share->below + i]] = stored;
    }
}

/* Entries that are left may hold a cell whose count says so: no difference changes. */
static void hold_as_counted(struct making *making, size_t left)
{
    uint16_t *count = making->heap->count.at;
    for (size_t i = 0; i < left; i++) {
        size_t cell = below(making->heap->kind.len);
        if (count[cell] == COUNT_MAX)
            continue;
        count[cell]++;
        put(making, cell + 1);
    }
}

/* Kinds, flags and control say nothing to an audit. */
static void make_rest(struct heap *heap)
{
    for (size_t cell = 0; cell < heap->kind.len; cell++) {
        heap->kind.at[cell] = below(5);
        heap->flags.at[cell] = below(5);
    }
    heap->control.at[LENGTH] = below(heap->kind.len + 2);
    heap->control.at[RUNNING] = below(65536);
}

void make_share(struct heap *heap, const struct share *share)
{
    static struct making making;
    begin(&making, heap);
    hold_those_below(&making, share);
    lose(&making, share->lost);
    store(&making, share);
    if (chance(50))
        hold_as_counted(&making, entries_in(share) - making.used);
    make_rest(heap);
}
