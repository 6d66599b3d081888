/* SIZE of an audit: the heap's tables, and the differences, which have to be N long too. */
#include "suites.h"

#include "auditing.h"
#include "choice.h"
#include "misfits.h"

static const size_t cells[] = { 1, 2, 3, 8, 64, 1023, 1024 };

static const struct report empty, begun = { 2, { 1, 3, 1, 70, 5, 0 } };

/* "the heap's row is 1 heap refused SIZE and nothing else, and the report takes it so" */
static void refused(struct pair *pair, size_t lent_len, struct report report)
{
    struct lent lent = lent_of(lent_len);
    struct audited audited = pair_audit(pair, &lent, report);
    report.heaps++;
    report.totals.size++;
    demand(audited.refused == SIZE, "lengths that don't fit are refused");
    demand(same_report(audited.report, report), "a heap refused SIZE is counted, and adds nothing else");
    lent_free(&lent);
}

/* With differences that would fit the kind table, and that wouldn't. */
static void refused_all(const size_t len[TABLES])
{
    pair_sequence("lengths of an audit");
    struct pair pair = pair_make(len);
    fill_with_noise(&pair);
    refused(&pair, len[T_KIND], empty);
    refused(&pair, len[T_KIND], begun);
    refused(&pair, len[T_KIND] + 1, begun);
    pair_free(&pair);
}

static void differences_off(size_t n)
{
    size_t wrong[WRONG_LENGTHS];
    wrong_lengths(wrong, n);
    pair_sequence("lengths of the differences");
    struct pair pair = pair_of(n);
    fill_with_noise(&pair);
    for (size_t i = 0; i < WRONG_LENGTHS; i++) {
        refused(&pair, wrong[i], empty);
        refused(&pair, wrong[i], begun);
    }
    pair_free(&pair);
}

void audit_lengths(void)
{
    each_misfit(refused_all);
    for (size_t i = 0; i < sizeof cells / sizeof *cells; i++)
        differences_off(cells[i]);
}
