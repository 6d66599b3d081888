/* Lists of heaps of all sorts, sound or not, whose report is carried along; the longest go over the limit of a thousand. */
#include "suites.h"

#include "auditing.h"
#include "breaking.h"
#include "choice.h"
#include "made.h"
#include "random.h"

static const size_t sizes[] = { 1, 1, 2, 2, 3, 3, 4, 5, 6, 8, 15, 64, 65, 255, 1023, 1024 };

enum { SIZES = sizeof sizes / sizeof *sizes, SMALL = 10 };

static void by_calls(struct pair *pair)
{
    enum mood mood = below(MOODS);
    for (int i = 0; i < 30; i++)
        knowing_call(pair, mood);
}

static void drawn(struct pair *pair)
{
    make_sound(&pair->ours);
}

static void loose(struct pair *pair)
{
    make_loose(&pair->ours);
}

static void damaged(struct pair *pair)
{
    const struct damage *damage = &damages[below(damage_count)];
    make_sound(&pair->ours);
    damage->apply(&pair->ours, damage);
}

static void changed(struct pair *pair)
{
    make_sound(&pair->ours);
    for (int i = below(4); i >= 0; i--) {
        struct table *table = table_of(&pair->ours, below(TABLES));
        table->at[below(table->len)] = chance(50) ? below(pair->ours.kind.len + 3) : below(65536);
    }
}

/* References to every cell and to two that are not there; now and then the largest. */
static uint16_t some_reference(size_t n)
{
    return chance(3) ? 65535 : below(n + 3);
}

static void sow(const struct table *table, size_t n, unsigned percent)
{
    for (size_t i = 0; i < table->len; i++)
        table->at[i] = chance(percent) ? some_reference(n) : 0;
}

/* Senseless tables whose references mostly name cells, and whose counts are not far from them. */
static void senseless(struct pair *pair)
{
    struct heap *heap = &pair->ours;
    size_t n = heap->kind.len;
    unsigned percent = below(101);
    for (size_t cell = 0; cell < n; cell++) {
        heap->kind.at[cell] = below(5);
        heap->flags.at[cell] = below(5);
        heap->count.at[cell] = chance(5) ? below(65536) : below(percent / 4 + 2);
    }
    sow(&heap->roots, n, percent);
    sow(&heap->slots, n, percent);
    sow(&heap->queue, n, percent);
    heap->control.at[LENGTH] = below(n + 2);
    heap->control.at[RUNNING] = below(ROOTS + 2);
}

/* All entries hold one cell, or a few neighbours. */
static void crowded(struct pair *pair)
{
    struct heap *heap = &pair->ours;
    size_t n = heap->kind.len, first = below(n), span = chance(50) ? 1 : 1 + below(n - first < 3 ? n - first : 3);
    for (int t = 0; t < TABLES; t++)
        for (size_t i = 0; i < table_of(heap, t)->len; i++)
            table_of(heap, t)->at[i] = t == T_COUNT ? below(3) : first + 1 + below(span);
}

static void (*const sorts[])(struct pair *) = {
    by_calls, drawn, loose, damaged, damaged, changed, senseless, senseless, crowded, fill_with_noise,
};

enum { SORTS = sizeof sorts / sizeof *sorts };

static struct pair heap_of_sort(size_t cells, void (*sort)(struct pair *))
{
    struct pair pair = pair_of(cells);
    sort(&pair);
    pair_share(&pair);
    return pair;
}

/* One table is a little longer or shorter than it should be. */
static struct pair unfit(size_t cells)
{
    size_t len[TABLES];
    fitting_lengths(len, cells);
    len[below(TABLES)] += chance(50) ? 1 : -1;
    struct pair pair = pair_make(len);
    fill_with_noise(&pair);
    return pair;
}

/* So many differences are lent for n cells. */
static size_t unfit_differences(size_t n)
{
    const size_t lens[] = { 0, n - 1, n + 1, 2 * n, n + 65536 };
    return lens[below(sizeof lens / sizeof *lens)];
}

static struct report audit_one(struct pair pair, size_t len, struct report report)
{
    struct lent lent = lent_of(len);
    struct audited audited = pair_audit(&pair, &lent, report);
    demand(audited.refused != TOTAL, "a list leads to the report that it leads to");
    lent_free(&lent);
    pair_free(&pair);
    return audited.report;
}

static struct report next_of(struct report report, size_t cells, unsigned unfit_percent)
{
    if (chance(unfit_percent))
        return chance(50) ? audit_one(unfit(cells), cells, report)
                          : audit_one(heap_of_sort(cells, senseless), unfit_differences(cells), report);
    return audit_one(heap_of_sort(cells, sorts[below(SORTS)]), cells, report);
}

static void any_list(void)
{
    struct report report = { 0 };
    unsigned unfit_percent = below(4) * 8;
    pair_sequence("lists of heaps");
    for (size_t i = below(24); i > 0; i--)
        report = next_of(report, sizes[below(SIZES)], unfit_percent);
}

/* The heaps of a list up to the last but one that is taken; small ones. */
static struct report nearly_full(unsigned unfit_percent)
{
    struct report report = { 0 };
    pair_sequence("a thousand heaps");
    while (report.heaps < HEAPS_MAX - 1)
        report = next_of(report, sizes[below(SMALL)], unfit_percent);
    return report;
}

/* "Any heap after the first thousand, SIZE ones counted, is refused 14 MANY, here before SIZE, adds nothing" */
static void past_the_end(struct report report)
{
    struct report after = report;
    for (int i = 0; i < 8; i++)
        after = next_of(after, sizes[below(SIZES)], 50);
    demand(report.heaps == HEAPS_MAX && same_report(after, report), "nothing is added after a thousand heaps");
}

static void full_list(unsigned unfit_percent)
{
    struct report report = nearly_full(unfit_percent);
    past_the_end(next_of(report, 1 + below(3), 0));
    past_the_end(audit_one(unfit(1 + below(3)), 1, report));
}

void audit_lists(void)
{
    for (int i = 0; i < 60; i++)
        any_list();
    full_list(0);
    full_list(30);
    full_list(97);
}
