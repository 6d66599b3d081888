/* Reports with any numbers in them, and with numbers that come from a list's but for a few bits. */
#include "suites.h"

#include "aims.h"
#include "auditing.h"
#include "choice.h"
#include "random.h"

static const uint64_t edges[] = {
    0, 1, 2, 3, 63, 64, 65, 72, 73, 74, 255, 256, 998, 999, 1000, 1001, 1023, 1024, 1025, 9280, 65534, 65535, 65536, INT32_MAX,
    (uint64_t)INT32_MAX + 1, UINT32_MAX, (uint64_t)UINT32_MAX + 1, (uint64_t)UINT32_MAX + 2, INT64_MAX - 1, INT64_MAX,
    (uint64_t)INT64_MAX + 1, (uint64_t)INT64_MAX + 2, UINT64_MAX - 1023, UINT64_MAX - 1, UINT64_MAX,
};

static uint64_t some_edge(void)
{
    return edges[below(sizeof edges / sizeof *edges)];
}

/* Cells that fit, cells without a place for differences, and tables that don't fit. */
enum { FITTING, LENT_NOTHING, NOT_FITTING, PROBES };

static struct {
    struct pair pair;
    struct lent lent;
} probes[PROBES];

static void make_probes(void)
{
    static const size_t unfit[TABLES] = { 2, 2, 2, 16, 64, 3, 2 };
    for (int p = 0; p < PROBES; p++) {
        probes[p].pair = p == NOT_FITTING ? pair_make(unfit) : pair_of(2);
        probes[p].lent = lent_of(p == LENT_NOTHING ? 0 : 2);
        fill_with_noise(&probes[p].pair);
    }
}

static void free_probes(void)
{
    for (int p = 0; p < PROBES; p++) {
        pair_free(&probes[p].pair);
        lent_free(&probes[p].lent);
    }
}

static uint16_t ask(struct report report)
{
    uint16_t refused = DONE;
    for (int p = PROBES - 1; p >= 0; p--)
        refused = pair_audit(&probes[p].pair, &probes[p].lent, report).refused;
    return refused;
}

/* The numbers of a report, one after another; the sum as its bits. */
enum { HEAPS, BELOW, AT, ABOVE, SUM, LOST, SIZES, NUMBERS };

static void numbers_of(const struct report *report, uint64_t number[NUMBERS])
{
    const struct row *totals = &report->totals;
    const uint64_t numbers[NUMBERS] = { report->heaps, totals->below, totals->at, totals->above,
                                        totals->sum, totals->lost, totals->size };
    for (int i = 0; i < NUMBERS; i++)
        number[i] = numbers[i];
}

static struct report report_of(const uint64_t number[NUMBERS])
{
    struct row totals = { number[BELOW], number[AT], number[ABOVE], number[SUM], number[LOST], number[SIZES] };
    return (struct report){ number[HEAPS], totals };
}

static void any_numbers(void)
{
    uint64_t number[NUMBERS];
    for (int i = 0; i < NUMBERS; i++)
        number[i] = chance(40) ? below(4) : some_edge();
    if (chance(60))
        number[HEAPS] = below(1 + below(HEAPS_MAX));
    ask(report_of(number));
}

static struct report some_report(void)
{
    struct aim aim = random_aim((struct scale){ chance(50) ? 4 : HEAPS_MAX - 1, chance(50) ? 9 : 9000 });
    return aim_at(&aim, some_sum(&aim));
}

static void one_number_else(void)
{
    struct report report = some_report();
    uint64_t number[NUMBERS];
    for (int i = 0; i < NUMBERS; i++) {
        numbers_of(&report, number);
        number[i] = some_edge();
        ask(report_of(number));
    }
}

/* Who looks at fewer bits takes these for numbers of a list. */
static void one_bit_else(void)
{
    static const unsigned bits[] = { 8, 15, 16, 20, 31, 32, 33, 48, 62, 63 };
    struct report report = some_report();
    uint64_t number[NUMBERS], bit = (uint64_t)1 << bits[below(sizeof bits / sizeof *bits)];
    for (int i = 0; i < NUMBERS; i++) {
        numbers_of(&report, number);
        number[i] += chance(50) ? bit : -bit;
        ask(report_of(number));
    }
}

/* Two numbers whose sum or difference is the same modulo 2 to the 64th, or the 32nd. */
static void sum_wraps(void)
{
    static const int pairs[][2] = { { BELOW, AT }, { AT, ABOVE }, { BELOW, ABOVE }, { BELOW, LOST }, { AT, LOST },
                                    { ABOVE, SUM }, { BELOW, SUM }, { HEAPS, AT }, { SIZES, AT }, { LOST, SUM } };
    const int *pair = pairs[below(sizeof pairs / sizeof *pairs)];
    uint64_t number[NUMBERS], shift = chance(50) ? below(5) + 1 : some_edge();
    struct report report = some_report();
    numbers_of(&report, number);
    number[pair[0]] += shift;
    number[pair[1]] -= shift;
    ask(report_of(number));
}

/* One heap of one cell and nothing else, by sums and differences that wrap around 64 bits. */
static void known_wraps(void)
{
    static const struct report wraps[] = {
        { 1, { 0, UINT64_MAX, 2, 2, 0, 0 } },
        { 1, { UINT64_MAX, 2, 0, 0, 0, 0 } },
        { 1, { UINT64_MAX, 1, 1, 2, 0, 0 } },
        { 0, { 0, 1, 0, 0, 0, UINT64_MAX } },
        { 1, { 0, 1, 0, 0, UINT64_MAX, 0 } },
        { 1, { 1, 0, 0, -1, UINT64_MAX, 0 } },
        { 1, { 0, 0, 1, INT64_MIN, 0, 0 } },
        { 1, { 1, 0, 0, INT64_MIN, 0, 0 } },
        { 1, { 1, 0, 0, INT64_MAX, 0, 0 } },
        { 0, { 0, 0, 0, INT64_MIN, 0, 0 } },
        { 999, { 0, 999, 0, 0, 0, UINT64_MAX } },
    };
    for (size_t i = 0; i < sizeof wraps / sizeof *wraps; i++)
        demand(ask(wraps[i]) == TOTAL, "a report with numbers that wrap around is refused");
}

/* "MANY  the report has a thousand heaps already", whatever its other numbers are. */
static void too_many(void)
{
    static const uint64_t heaps[] = { HEAPS_MAX, HEAPS_MAX + 1, 1024, 65536, (uint64_t)UINT32_MAX + 1, (uint64_t)UINT32_MAX + 6,
                                      (uint64_t)INT64_MAX + 1, UINT64_MAX };
    for (size_t i = 0; i < sizeof heaps / sizeof *heaps; i++) {
        struct report report = some_report();
        report.heaps = heaps[i];
        demand(ask(report) == MANY, "more than a thousand heaps are refused");
        report.totals.size = report.heaps - below(3);
        demand(ask(report) == MANY, "more than a thousand heaps are refused");
    }
}

/* A thousand heaps that a list leads to: all refused SIZE, or all of one cell. */
static void full_reports(void)
{
    static const struct report full[] = { { HEAPS_MAX, { .size = HEAPS_MAX } }, { HEAPS_MAX, { .at = HEAPS_MAX } } };
    for (size_t i = 0; i < sizeof full / sizeof *full; i++)
        demand(ask(full[i]) == MANY, "a thousand heaps are full");
}

void audit_reports(void)
{
    pair_sequence("any numbers in a report");
    make_probes();
    known_wraps();
    for (int i = 0; i < 400; i++) {
        demand(ask(some_report()) == DONE, "a report within the bounds is taken");
        any_numbers();
        one_number_else();
        one_bit_else();
        sum_wraps();
        sum_wraps();
    }
    for (int i = 0; i < 4; i++) {
        too_many();
        full_reports();
    }
    free_probes();
}
