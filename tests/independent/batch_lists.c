/* Histories of batches of random records, with single calls among them and totals that are carried along. */
#include "suites.h"

#include "batching.h"
#include "made.h"
#include "random.h"
#include "records.h"
#include "totals.h"

/* How many histories of how many steps, by the number of cells, and how long the lists are at most. */
struct plan {
    size_t cells, histories, steps, longest;
};

static const struct plan plans[] = {
    { 1, 60, 12, 30 }, { 2, 80, 12, 40 }, { 3, 100, 12, 60 }, { 4, 100, 12, 80 }, { 6, 80, 12, 100 }, { 16, 20, 12, 120 },
    { 63, 3, 10, 200 }, { 64, 3, 10, 200 }, { 65, 3, 10, 200 }, { 256, 4, 10, 200 }, { 1023, 1, 10, 150 }, { 1024, 3, 10, 150 },
};

/* How many lists, one after another, that are as long as they may be. */
static const struct {
    size_t cells, lists;
} long_plans[] = { { 1, 6 }, { 2, 6 }, { 3, 6 }, { 4, 6 }, { 1024, 1 } };

static void (*const makes[])(struct heap *) = { make_sound, make_loose, make_plain };

enum { MAKES = sizeof makes / sizeof *makes };

/* Fresh, or with tables that no short list of calls would make. */
static struct pair some_pair(size_t cells)
{
    if (chance(60))
        return pair_made("batches on sound tables", cells, makes[below(MAKES)]);
    pair_sequence("batches on a fresh heap");
    struct pair pair = pair_of(cells);
    fill_with_noise(&pair);
    pair_call(&pair, FRESH, 0, 0, 0);
    return pair;
}

static size_t some_length(size_t longest)
{
    const size_t edges[] = { 0, 1, 2, longest };
    return chance(30) ? edges[below(sizeof edges / sizeof *edges)] : below(longest + 1);
}

static unsigned some_spoilt(void)
{
    return chance(5) ? 100 : below(4) * 10;
}

static void one_batch(struct pair *pair, size_t len, enum mood mood, struct totals *totals)
{
    struct records records = random_records(&pair->ours, len, mood, some_spoilt());
    pair_batch_fitting(pair, records, totals);
    records_free(&records);
}

/* A step is mostly a batch; the totals are nobody else's business, and a single call doesn't raise them. */
static void history(const struct plan *plan)
{
    struct pair pair = some_pair(plan->cells);
    struct totals totals = chance(50) ? (struct totals){ 0 } : some_totals(plan->longest);
    enum mood mood = below(MOODS);
    for (size_t i = 0; i < plan->steps; i++) {
        if (chance(20))
            mood = below(MOODS);
        if (chance(30))
            knowing_call(&pair, mood);
        else
            one_batch(&pair, some_length(plan->longest), mood, &totals);
    }
    pair_free(&pair);
}

/* With one record more the list is refused; without it the rest is done. */
static void one_too_many(struct pair *pair, struct totals *totals)
{
    struct records records = random_records(&pair->ours, RECORDS_MAX + 1, below(MOODS), some_spoilt());
    demand(pair_batch_fitting(pair, records, totals).refused == SIZE, "a list over 4,096 long is refused");
    records.len--;
    demand(pair_batch_fitting(pair, records, totals).refused == DONE, "a list of 4,096 is done");
    records_free(&records);
}

static void longest_lists(size_t cells, size_t lists)
{
    struct pair pair = some_pair(cells);
    struct totals totals = some_totals(lists * RECORDS_MAX);
    for (size_t i = 0; i < lists; i++)
        one_too_many(&pair, &totals);
    pair_free(&pair);
}

void batch_lists(void)
{
    for (size_t p = 0; p < sizeof plans / sizeof *plans; p++)
        for (size_t i = 0; i < plans[p].histories; i++)
            history(&plans[p]);
    for (size_t p = 0; p < sizeof long_plans / sizeof *long_plans; p++)
        longest_lists(long_plans[p].cells, long_plans[p].lists);
}
