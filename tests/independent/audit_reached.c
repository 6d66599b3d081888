/* TOTAL, exactly: to each report within the bounds a list of heaps is made that leads there, and one number further there is
   none. */
#include "suites.h"

#include "aims.h"
#include "audit_coverage.h"
#include "auditing.h"
#include "boxes.h"

/* A heap for which nothing but the report is a reason to refuse it. */
static struct pair probe;

static void within(struct report report)
{
    demand(pair_audit_fitting(&probe, report).refused == DONE, "a report within the bounds is taken");
}

static void beyond(struct report report)
{
    demand(pair_audit_fitting(&probe, report).refused == TOTAL, "a report beyond a bound is refused");
}

static struct report audit_share(const struct share *share, struct report report)
{
    struct pair pair = pair_of(share->cells);
    make_share(&pair.ours, share);
    pair_share(&pair);
    report = pair_audit_fitting(&pair, report).report;
    pair_free(&pair);
    return report;
}

static struct report audit_unfit(struct report report)
{
    struct lent none = lent_of(0);
    report = pair_audit(&probe, &none, report).report;
    lent_free(&none);
    return report;
}

static void lead_to(struct report wanted)
{
    static struct share shares[HEAPS_MAX];
    struct report report = { 0 };
    demand(share_out(&wanted, shares), "the report can be shared out");
    for (size_t i = 0; i < wanted.totals.size; i++)
        report = audit_unfit(report);
    for (int64_t i = 0; i < heaps_of(&wanted); i++)
        report = audit_share(&shares[i], report);
    demand(same_report(report, wanted), "the list leads to the report");
    coverage_situation(LIST_LEADS_THERE);
}

/* The bound that is stricter than both others, if one is. */
static void note_lowest(const struct report *report)
{
    static const enum situation lowest[BOUNDS] = { LOWEST_SUM_BY_LOST, LOWEST_SUM_BY_CELLS, LOWEST_SUM_BY_OTHERS };
    for (int bound = 0; bound < BOUNDS; bound++) {
        int64_t here = bound_of(report, bound);
        if (here < bound_of(report, (bound + 1) % BOUNDS) && here < bound_of(report, (bound + 2) % BOUNDS))
            coverage_situation(lowest[bound]);
    }
}

static void about_sums(const struct aim *aim)
{
    within(aim_at(aim, aim->lowest));
    beyond(aim_at(aim, aim->lowest - 1));
    note_lowest(&aim->report);
    within(aim_at(aim, aim->highest));
    beyond(aim_at(aim, aim->highest + 1));
    coverage_situation(HIGHEST_SUM);
    within(aim_at(aim, some_sum(aim)));
}

/* With the highest sum, so that no other bound is passed where there is a cell above zero. */
static void about_lost(struct aim aim)
{
    aim.report.totals.lost = entries_of(&aim.report) - aim.report.totals.below;
    within(aim_at(&aim, aim.highest));
    aim.report.totals.lost++;
    beyond(aim_at(&aim, aim.highest));
    coverage_situation(MOST_LOST);
}

/* Another number of cells at zero, with the same number of lost entries if there is room for them. */
static struct aim with_cells_at(struct aim aim, uint64_t at)
{
    struct report report = aim.report;
    report.totals.at = at;
    int64_t most = entries_of(&report) - report.totals.below;
    if (most < (int64_t)report.totals.lost)
        report.totals.lost = most < 0 ? 0 : most;
    return aim_of(report);
}

static void about_few_cells(struct aim aim)
{
    uint64_t heaps = heaps_of(&aim.report), others = aim.report.totals.below + aim.report.totals.above;
    if (others >= heaps)
        return;
    aim = with_cells_at(aim, heaps - others);
    within(aim_at(&aim, aim.highest));
    aim = with_cells_at(aim, heaps - others - 1);
    beyond(aim_at(&aim, aim.highest));
    coverage_situation(FEW_CELLS);
}

static void about_most_cells(struct aim aim)
{
    uint64_t heaps = heaps_of(&aim.report), others = aim.report.totals.below + aim.report.totals.above;
    aim = with_cells_at(aim, CELLS_MAX * heaps - others);
    within(aim_at(&aim, aim.highest));
    aim = with_cells_at(aim, CELLS_MAX * heaps - others + 1);
    beyond(aim_at(&aim, aim.highest));
    coverage_situation(MOST_CELLS);
}

/* More refused SIZE than there are heaps; and heaps that have no cells. */
static void about_heaps(struct aim aim)
{
    aim.report.totals.size = aim.report.heaps + 1;
    beyond(aim_at(&aim, some_sum(&aim)));
    beyond((struct report){ aim.report.heaps, { .size = aim.report.heaps + 1 } });
    within((struct report){ aim.report.heaps, { .size = aim.report.heaps } });
    beyond((struct report){ aim.report.heaps + 1, { .size = aim.report.heaps } });
}

static struct aim about_all(struct scale scale)
{
    pair_sequence("bounds of a report");
    struct aim aim = random_aim(scale);
    about_sums(&aim);
    about_lost(aim);
    about_few_cells(aim);
    about_most_cells(aim);
    if (aim.report.heaps + 1 < HEAPS_MAX)
        about_heaps(aim);
    return aim;
}

static void lead_along(struct scale scale)
{
    struct aim aim = about_all(scale);
    lead_to(aim_at(&aim, aim.lowest));
    lead_to(aim_at(&aim, aim.highest));
    lead_to(aim_at(&aim, some_sum(&aim)));
}

static const struct {
    struct scale scale;
    int lists;
} plans[] = { { { 3, 4 }, 250 }, { { 6, 30 }, 100 }, { { 2, 2046 }, 12 }, { { 5, 5115 }, 4 }, { { 600, 40 }, 2 } };

/* As many heaps and cells as can be, with cells below zero in all of them but one. */
static void lead_to_the_most(void)
{
    uint64_t heaps = HEAPS_MAX - 1;
    pair_sequence("most heaps and cells");
    struct row totals = { .below = heaps - 1, .at = 7, .above = CELLS_MAX * heaps - heaps - 6, .lost = 9000 };
    struct aim aim = aim_of((struct report){ heaps, totals });
    lead_to(aim_at(&aim, aim.lowest));
}

void audit_reached(void)
{
    pair_sequence("bounds of a report");
    probe = pair_of(1);
    for (int i = 0; i < 600; i++)
        about_all((struct scale){ HEAPS_MAX - 1, i % 2 == 0 ? 50 : CELLS_MAX * HEAPS_MAX });
    for (size_t p = 0; p < sizeof plans / sizeof *plans; p++)
        for (int i = 0; i < plans[p].lists; i++)
            lead_along(plans[p].scale);
    lead_to_the_most();
    pair_free(&probe);
}
