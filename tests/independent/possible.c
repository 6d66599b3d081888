/* TOTAL: "no list of heaps leads to the report". What the rows of a list can be follows from what a heap is. Those of SIZE
   add nothing; let k heaps be left, with M cells in all.

   - Each has 1 to 1,024 cells, so M is k to 1,024 k; every such M can be shared out.
   - Each has 64 roots, and for each cell eight slots and a place in the queue. An entry is lost or holds one cell or nothing.
   - A cell above zero can have any difference from 1 to 65,535: nothing holds it, and its count is free.
   - A cell below zero needs an entry that holds it, and with a count of 0 its difference is as far below as there are
     entries that hold it. An entry holds cells of its own heap alone.

   So where the cells below zero are spread over as many heaps as can be, and these have as many of the cells as they can,
   most entries are there to hold them: lost ones stand in the other heaps first. From the fewest to the most of these entries
   every number is possible, and so is every sum of the cells above zero between its ends. Numbers are wide, for a report may
   hold any. */
#include "audit.h"

typedef __int128 wide;

const struct limits box = { CELLS_MAX, ROOTS, SLOTS + 1, 65535 };

/* A report's numbers, with the heaps that were not refused SIZE and all their cells. */
struct figures {
    wide heaps, cells, below, above, sum, lost;
};

static struct figures figures_of(const struct report *report)
{
    const struct row *totals = &report->totals;
    return (struct figures){
        .heaps = (wide)report->heaps - totals->size,
        .cells = (wide)totals->below + totals->at + totals->above,
        .below = totals->below,
        .above = totals->above,
        .sum = totals->sum,
        .lost = totals->lost,
    };
}

static wide smaller(wide a, wide b)
{
    return a < b ? a : b;
}

/* The entries of roots, slots and queue. */
static wide entries(const struct limits *limits, wide heaps, wide cells)
{
    return limits->roots * heaps + limits->per_cell * cells;
}

/* More refused SIZE than there are heaps leave fewer than none, which have no number of cells. */
static bool cells_fit(const struct limits *limits, const struct figures *all)
{
    return all->heaps <= all->cells
        && all->cells <= limits->cells * all->heaps;
}

/* An entry for each cell below zero, and the lost ones. */
static bool entries_suffice(const struct limits *limits, const struct figures *all)
{
    return all->lost + all->below <= entries(limits, all->heaps, all->cells);
}

/* The most cells that so many of the heaps can have; each other heap needs one. */
static wide most_cells(const struct limits *limits, const struct figures *all, wide heaps)
{
    wide others = all->heaps - heaps;
    return smaller(limits->cells * heaps, all->cells - others);
}

/* The most entries that can hold cells below zero. */
static wide most_holding(const struct limits *limits, const struct figures *all)
{
    wide heaps = smaller(all->below, all->heaps);
    wide there = entries(limits, heaps, most_cells(limits, all, heaps));
    wide not_lost = entries(limits, all->heaps, all->cells) - all->lost;
    return smaller(there, not_lost);
}

static bool sum_fits(const struct limits *limits, const struct figures *all)
{
    wide lowest = all->above - most_holding(limits, all);
    wide highest = limits->count * all->above - all->below;
    return lowest <= all->sum && all->sum <= highest;
}

bool possible(const struct limits *limits, const struct report *report)
{
    struct figures all = figures_of(report);
    return cells_fit(limits, &all)
        && entries_suffice(limits, &all)
        && sum_fits(limits, &all);
}
