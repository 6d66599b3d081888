/* Heaps whose differences are known without any audit, the largest that there are among them. */
#include "suites.h"

#include "auditing.h"
#include "parts.h"

#include <stddef.h>

/* What each heap's row is, and the difference of one of its cells. The number of heaps refused SIZE is 0. */
struct example {
    const char *name;
    size_t cells;
    void (*make)(struct heap *);
    struct row row;
    size_t cell;
    int32_t difference;
};

static void nothing(struct heap *heap)
{
    (void)heap;
}

/* "below zero when the stored count is too low" */
static void root_not_counted(struct heap *heap)
{
    heap->kind.at[1] = OBJECT;
    heap->roots.at[ROOTS - 1] = 1 + 1;
}

static void count_too_high(struct heap *heap)
{
    heap->kind.at[0] = STRING;
    heap->count.at[0] = 5;
    heap->roots.at[0] = heap->roots.at[63] = 0 + 1;
}

/* "A free cell counts too", and "free cells' slots" do. */
static void free_cells(struct heap *heap)
{
    heap->count.at[0] = 7;
    *slot_of(heap, 0, 7) = 1 + 1;
    *slot_of(heap, 2, 0) = 2 + 1;
}

/* "entries past the queue length too"; an object that is queued twice is counted twice. */
static void past_the_queue(struct heap *heap)
{
    heap->kind.at[0] = OBJECT;
    heap->flags.at[0] = FINALIZER;
    heap->count.at[0] = 1;
    heap->queue.at[0] = heap->queue.at[1] = heap->queue.at[3] = 0 + 1;
    heap->control.at[LENGTH] = 1;
}

/* "references above N are lost": N names the last cell. */
static void about_n(struct heap *heap)
{
    uint16_t n = heap->kind.len;
    heap->roots.at[0] = n;
    heap->roots.at[1] = n + 1;
    *slot_of(heap, n - 1, 0) = n;
    *slot_of(heap, n - 1, 7) = n + 1;
    heap->queue.at[0] = n;
    heap->queue.at[n - 1] = 65535;
}

static void unknown_kinds(struct heap *heap)
{
    heap->kind.at[0] = 4;
    heap->kind.at[1] = 65535;
    heap->flags.at[1] = 65535;
    heap->count.at[1] = 2;
    *slot_of(heap, 0, 3) = 1 + 1;
    heap->control.at[LENGTH] = heap->control.at[RUNNING] = 65535;
}

static void fill_table(const struct table *table, uint16_t with)
{
    for (size_t i = 0; i < table->len; i++)
        table->at[i] = with;
}

static void fill_entries(struct heap *heap, uint16_t ref)
{
    fill_table(&heap->roots, ref);
    fill_table(&heap->slots, ref);
    fill_table(&heap->queue, ref);
}

static void all_hold_the_last(struct heap *heap)
{
    fill_entries(heap, heap->kind.len);
}

/* The count wraps around 16 bits where it is taken for one. */
static void all_hold_the_first(struct heap *heap)
{
    fill_entries(heap, 0 + 1);
    heap->count.at[0] = 9279;
}

static void all_lost(struct heap *heap)
{
    fill_entries(heap, heap->kind.len + 1);
}

static void largest_counts(struct heap *heap)
{
    fill_table(&heap->count, 65535);
}

/* "In a sound heap every difference is 0": K6 after its CLEAR and START, with the bump. */
static void running(struct heap *heap)
{
    heap->kind.at[0] = OBJECT;
    heap->flags.at[0] = FINALIZER;
    heap->count.at[0] = 2;
    heap->roots.at[5] = heap->queue.at[0] = 0 + 1;
    heap->control.at[LENGTH] = 1;
    heap->control.at[RUNNING] = 5 + 1;
}

#define ROW(BELOW, AT, ABOVE, SUM, LOST) { BELOW, AT, ABOVE, SUM, LOST, 0 }

static const struct example examples[] = {
    { "fresh, one cell", 1, nothing, ROW(0, 1, 0, 0, 0), 0, 0 },
    { "fresh, 1,024 cells", 1024, nothing, ROW(0, 1024, 0, 0, 0), 1023, 0 },
    { "a root that is not counted", 2, root_not_counted, ROW(1, 1, 0, -1, 0), 1, -1 },
    { "a count too high", 3, count_too_high, ROW(0, 2, 1, 3, 0), 0, 3 },
    { "free cells", 3, free_cells, ROW(2, 0, 1, 5, 0), 1, -1 },
    { "entries past the queue length", 4, past_the_queue, ROW(1, 3, 0, -2, 0), 0, -2 },
    { "references about N, one cell", 1, about_n, ROW(1, 0, 0, -2, 3), 0, -2 },
    { "references about N, six cells", 6, about_n, ROW(1, 5, 0, -3, 3), 5, -3 },
    { "references about N, 1,024 cells", 1024, about_n, ROW(1, 1023, 0, -3, 3), 1023, -3 },
    { "unknown kinds", 2, unknown_kinds, ROW(0, 1, 1, 1, 0), 1, 1 },
    { "all entries hold the last cell", 1024, all_hold_the_last, ROW(1, 1023, 0, -9280, 0), 1023, -9280 },
    { "all entries hold a single cell", 1, all_hold_the_last, ROW(1, 0, 0, -73, 0), 0, -73 },
    { "all entries but one are counted", 1024, all_hold_the_first, ROW(1, 1023, 0, -1, 0), 0, -1 },
    { "all entries are lost", 1024, all_lost, ROW(0, 1024, 0, 0, 9280), 0, 0 },
    { "the largest counts", 1024, largest_counts, ROW(0, 0, 1024, 67107840, 0), 512, 65535 },
    { "a finalizer that runs", 2, running, ROW(0, 2, 0, 0, 0), 0, 0 },
};

static void one_example(const struct example *example)
{
    pair_sequence(example->name);
    struct pair pair = pair_of(example->cells);
    struct lent lent = lent_of(example->cells);
    struct report wanted = { 1, example->row };
    example->make(&pair.ours);
    pair_share(&pair);
    struct audited audited = pair_audit(&pair, &lent, (struct report){ 0 });
    demand(audited.refused == DONE, "the example is audited");
    demand(same_report(audited.report, wanted), "the example's row is the known one");
    demand(lent.ours[example->cell] == example->difference, "the example's difference is the known one");
    lent_free(&lent);
    pair_free(&pair);
}

/* The sum over a list of the same heap is past 32 bits, on either side of zero. */
static void many_times(size_t cells, size_t times, void (*make)(struct heap *), struct row row)
{
    pair_sequence("the same heap again and again");
    struct pair pair = pair_of(cells);
    struct report report = { 0 }, wanted = { 0 };
    make(&pair.ours);
    pair_share(&pair);
    for (size_t i = 0; i < times; i++) {
        report = pair_audit_fitting(&pair, report).report;
        wanted = (struct report){ wanted.heaps + 1, add_rows(wanted.totals, row) };
    }
    demand(same_report(report, wanted), "the report is the known one");
    pair_free(&pair);
}

void audit_examples(void)
{
    for (size_t i = 0; i < sizeof examples / sizeof *examples; i++)
        one_example(&examples[i]);
    many_times(1024, 100, largest_counts, (struct row)ROW(0, 0, 1024, 67107840, 0));
    many_times(1024, 30, all_hold_the_last, (struct row)ROW(1, 1023, 0, -9280, 0));
    many_times(1, 1000, all_hold_the_last, (struct row)ROW(1, 0, 0, -73, 0));
}
