#include "auditing.h"

#include "audit_coverage.h"
#include "tested.h"

#include <inttypes.h>
#include <stdio.h>
#include <stdlib.h>
#include <string.h>

/* What stands in the differences before an audit is none of a cell: entries that are left, or added to, are seen. */
enum { GUARDS = 32, GUARD = 0x5a3c5a3c, UNWRITTEN = -0x12345678 };

static void fill(int32_t *at, size_t len, int32_t with)
{
    for (size_t i = 0; i < len; i++)
        at[i] = with;
}

struct lent lent_of(size_t len)
{
    struct lent lent = { .ours = malloc(len * sizeof *lent.ours), .len = len };
    lent.guarded = malloc((len + 2 * GUARDS) * sizeof *lent.guarded);
    lent.theirs = len == 0 && pair_lends_null() ? NULL : lent.guarded + GUARDS;
    fill(lent.guarded, len + 2 * GUARDS, GUARD);
    return lent;
}

void lent_free(struct lent *lent)
{
    free(lent->ours);
    free(lent->guarded);
}

static bool same_row(struct row a, struct row b)
{
    return a.below == b.below && a.at == b.at && a.above == b.above && a.sum == b.sum && a.lost == b.lost && a.size == b.size;
}

bool same_report(struct report a, struct report b)
{
    return a.heaps == b.heaps && same_row(a.totals, b.totals);
}

static const char *answer_difference(const struct audited *ours, const struct audited *theirs)
{
    if (ours->refused != theirs->refused)
        return "the refusals differ";
    if (!same_row(ours->heap, theirs->heap))
        return "the rows of the heap differ";
    return same_report(ours->report, theirs->report) ? NULL : "the reports differ";
}

/* In words, or null. */
static const char *entry_difference(const struct lent *lent)
{
    static char words[120];
    size_t i = 0;
    while (i < lent->len && lent->ours[i] == lent->theirs[i])
        i++;
    if (i == lent->len)
        return NULL;
    snprintf(words, sizeof words, "difference of cell %zu: independent %" PRId32 ", under test %" PRId32, i, lent->ours[i],
             lent->theirs[i]);
    return words;
}

static const char *guard_difference(const struct lent *lent)
{
    for (size_t i = 0; i < GUARDS; i++)
        if (lent->guarded[i] != GUARD || lent->guarded[GUARDS + lent->len + i] != GUARD)
            return "the audit under test wrote outside the differences";
    return NULL;
}

static void print_row(struct row row)
{
    printf("%" PRIu64 " below, %" PRIu64 " at, %" PRIu64 " above zero, sum %" PRId64 ", lost %" PRIu64 ", size %" PRIu64 "\n",
           row.below, row.at, row.above, row.sum, row.lost, row.size);
}

static void print_report(const char *what, struct report report)
{
    printf("  %s: heaps %" PRIu64 ", ", what, report.heaps);
    print_row(report.totals);
}

static void print_audited(const char *who, const struct audited *audited)
{
    printf("  %s answers refused %u, row ", who, audited->refused);
    print_row(audited->heap);
    print_report("and the report", audited->report);
}

/* Ends the program if there is a difference. */
static void check(const char *difference, struct report before, const struct audited *ours, const struct audited *theirs)
{
    if (difference == NULL)
        return;
    pair_tell_place();
    printf("audit\n");
    print_report("with the report", before);
    print_audited("the independent audit", ours);
    print_audited("the audit under test", theirs);
    printf("  %s\n", difference);
    exit(1);
}

struct audited pair_audit(struct pair *pair, struct lent *lent, struct report report)
{
    pair_step();
    fill(lent->ours, lent->len, UNWRITTEN);
    if (lent->len > 0)
        fill(lent->theirs, lent->len, UNWRITTEN);
    struct audited ours = audit(&pair->ours, lent->ours, lent->len, report);
    struct audited theirs = tested_audit(&pair->theirs, lent->theirs, lent->len, report);
    check(pair_difference(pair), report, &ours, &theirs);
    check(answer_difference(&ours, &theirs), report, &ours, &theirs);
    check(entry_difference(lent), report, &ours, &theirs);
    check(guard_difference(lent), report, &ours, &theirs);
    coverage_audit(&pair->ours, lent->ours, report, &ours);
    return ours;
}

struct audited pair_audit_fitting(struct pair *pair, struct report report)
{
    struct lent lent = lent_of(pair->ours.kind.len);
    struct audited audited = pair_audit(pair, &lent, report);
    lent_free(&lent);
    return audited;
}
