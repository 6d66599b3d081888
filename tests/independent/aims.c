#include "aims.h"

#include "random.h"

static int64_t lesser(int64_t a, int64_t b)
{
    return a < b ? a : b;
}

int64_t near_ends(int64_t low, int64_t high)
{
    int64_t span = high - low, off = chance(30) ? (int64_t)below(span + 1) : lesser(below(3), span);
    return chance(50) ? low + off : high - off;
}

int64_t heaps_of(const struct report *report)
{
    return report->heaps - report->totals.size;
}

static int64_t cells_of(const struct report *report)
{
    return report->totals.below + report->totals.at + report->totals.above;
}

/* 64 roots, and with each cell eight slots and a place in the queue. */
int64_t entries_of(const struct report *report)
{
    return 64 * heaps_of(report) + 9 * cells_of(report);
}

int64_t bound_of(const struct report *report, enum bound bound)
{
    const struct row *totals = &report->totals;
    switch (bound) {
    case BY_LOST: /* what is lost holds nothing */
        return entries_of(report) - totals->lost;
    case BY_CELLS: /* each is in a heap of 1,024 cells at most */
        return 9280 * totals->below;
    default: /* each is in a heap of one cell, to which all cells come that no other heap needs */
        return 73 * totals->below + 9 * (cells_of(report) - heaps_of(report));
    }
}

struct aim aim_of(struct report report)
{
    const struct row *totals = &report.totals;
    int64_t most = INT64_MAX;
    for (int bound = 0; bound < BOUNDS; bound++)
        most = lesser(most, bound_of(&report, bound));
    return (struct aim){ report, totals->above - most, 65535 * totals->above - totals->below };
}

/* Lost entries where one bound takes over from another, or any number of them. */
static int64_t some_lost(const struct report *report)
{
    int64_t most = entries_of(report) - report->totals.below;
    int64_t others = lesser(bound_of(report, BY_CELLS), bound_of(report, BY_OTHERS));
    int64_t crossing = entries_of(report) - others - 1 + (int64_t)below(3);
    return chance(50) && crossing >= 0 && crossing <= most ? crossing : near_ends(0, most);
}

/* Few, or as many as a report that takes another heap can have. */
static int64_t some_size(int64_t heaps)
{
    int64_t most = HEAPS_MAX - 1 - heaps;
    return chance(97) ? lesser(below(4), most) : most;
}

static struct row some_cells(int64_t heaps, int64_t cells)
{
    int64_t few = lesser(heaps + 1, cells);
    int64_t below_zero = near_ends(0, chance(60) ? few : cells);
    int64_t above_zero = near_ends(0, cells - below_zero);
    return (struct row){ .below = below_zero, .at = cells - below_zero - above_zero, .above = above_zero };
}

struct aim random_aim(struct scale scale)
{
    int64_t heaps = near_ends(0, scale.heaps), cells = near_ends(heaps, lesser(heaps + scale.cells, CELLS_MAX * heaps));
    struct report report = { .totals = some_cells(heaps, cells) };
    report.totals.size = some_size(heaps);
    report.heaps = heaps + report.totals.size;
    report.totals.lost = some_lost(&report);
    return aim_of(report);
}

struct report aim_at(const struct aim *aim, int64_t sum)
{
    struct report report = aim->report;
    report.totals.sum = sum;
    return report;
}

int64_t some_sum(const struct aim *aim)
{
    return near_ends(aim->lowest, aim->highest);
}
