/* The reasons of possible.c name no number but its limits. Where these are small every heap can be made, and so can every sum
   of rows: the reports found so are just the possible ones. The independent audit alone is tried here. */
#include "suites.h"

#include "audit.h"
#include "pair.h"

#include <inttypes.h>
#include <stdio.h>
#include <stdlib.h>
#include <string.h>

/* Rows of so many heaps, with fewer cells and lost references than so, and a sum from minus SPAN to below SPAN. All that the
   limits below allow is among them, and more. */
enum { HEAPS = 3, CELLS = 10, LOST = 17, SPAN = 30 };

static const struct limits small[] = {
    { 1, 1, 1, 2 }, { 1, 3, 2, 1 }, { 2, 0, 1, 2 }, { 2, 1, 1, 3 }, { 2, 1, 2, 1 }, { 3, 0, 1, 1 }, { 3, 1, 1, 2 },
};

/* Which rows some heaps, so many of them, have: by the cells below, at and above zero, the sum and the lost. */
typedef bool rows[CELLS][CELLS][CELLS][2 * SPAN][LOST];

static rows reached[HEAPS + 1];

static bool *place(rows in, const struct row *row)
{
    return &in[row->below][row->at][row->above][row->sum + SPAN][row->lost];
}

/* The cells of a heap under way, by their differences. */
struct tiny {
    const struct limits *limits;
    size_t cells, entries;
    int32_t differences[4];
    uint64_t lost;
};

static void note(const struct tiny *tiny)
{
    struct row row = { .lost = tiny->lost };
    for (size_t cell = 0; cell < tiny->cells; cell++)
        row = add_rows(row, cell_row(tiny->differences[cell]));
    *place(reached[1], &row) = true;
}

/* Every entry is empty, lost, or holds one of the cells. */
static void all_entries(struct tiny tiny)
{
    if (tiny.entries == 0) {
        note(&tiny);
        return;
    }
    tiny.entries--;
    all_entries(tiny);
    for (size_t cell = 0; cell < tiny.cells; cell++) {
        tiny.differences[cell]--;
        all_entries(tiny);
        tiny.differences[cell]++;
    }
    tiny.lost++;
    all_entries(tiny);
}

/* Every count of the cells from this one on. */
static void all_counts(struct tiny tiny, size_t cell)
{
    if (cell == tiny.cells) {
        all_entries(tiny);
        return;
    }
    for (int32_t count = 0; count <= tiny.limits->count; count++) {
        tiny.differences[cell] = count;
        all_counts(tiny, cell + 1);
    }
}

static void all_heaps(const struct limits *limits)
{
    for (size_t cells = 1; cells <= limits->cells; cells++)
        all_counts((struct tiny){ .limits = limits, .cells = cells, .entries = limits->roots + limits->per_cell * cells }, 0);
}

/* Goes through all rows of a size, those that are noted or all. */
static void each_row(size_t heaps, void (*deed)(size_t heaps, const struct row *row))
{
    struct row row = { 0 };
    for (row.below = 0; row.below < CELLS; row.below++)
        for (row.at = 0; row.at < CELLS; row.at++)
            for (row.above = 0; row.above < CELLS; row.above++)
                for (row.sum = -SPAN; row.sum < SPAN; row.sum++)
                    for (row.lost = 0; row.lost < LOST; row.lost++)
                        deed(heaps, &row);
}

static struct row found[1000];
static size_t found_count;

static void list_row(size_t heaps, const struct row *row)
{
    if (*place(reached[heaps], row))
        found[found_count++] = *row;
}

/* One heap more: each row with each row of a heap. */
static void add_heap(size_t heaps, const struct row *row)
{
    if (!*place(reached[heaps], row))
        return;
    for (size_t i = 0; i < found_count; i++) {
        struct row sum = add_rows(*row, found[i]);
        *place(reached[heaps + 1], &sum) = true;
    }
}

static const struct limits *limits;

static void check_row(size_t heaps, const struct row *row)
{
    struct report report = { heaps, *row };
    bool wanted = *place(reached[heaps], row);
    if (possible(limits, &report) == wanted)
        return;
    pair_tell_place();
    printf("%zu heaps of at most %u cells, %u roots, %u entries for a cell and counts up to %u: ", heaps, limits->cells,
           limits->roots, limits->per_cell, limits->count);
    printf("below %" PRIu64 ", at %" PRIu64 ", above %" PRIu64 ", sum %" PRId64 ", lost %" PRIu64 " is %s\n", row->below, row->at,
           row->above, row->sum, row->lost, wanted ? "possible" : "impossible");
    exit(1);
}

static void all_reports(const struct limits *of)
{
    static const struct row none;
    pair_sequence("small limits");
    limits = of;
    memset(reached, 0, sizeof reached);
    *place(reached[0], &none) = true;
    all_heaps(of);
    found_count = 0;
    each_row(1, list_row);
    for (size_t heaps = 1; heaps < HEAPS; heaps++)
        each_row(heaps, add_heap);
    for (size_t heaps = 0; heaps <= HEAPS; heaps++)
        each_row(heaps, check_row);
}

void audit_small(void)
{
    for (size_t i = 0; i < sizeof small / sizeof *small; i++)
        all_reports(&small[i]);
}
