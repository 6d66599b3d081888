/* Batches in which a single record frees or queues all cells, with totals near borders. */
#include "suites.h"

#include "baskets.h"
#include "batching.h"
#include "fates.h"
#include "totals.h"

enum { ROUNDS = 8, CALLS = 4 };

static const size_t cells[] = { 255, 256, 257, CELLS_MAX - 1, CELLS_MAX };

static const struct record cleared[CALLS] = {
    { CLEAR, FIRST, 0, 0 }, { CLEAR, LAST, 0, 0 }, { NEW, FIRST, STRING, 0 }, { COLLECT, 0, 0, 0 },
};
static const struct record collected[CALLS] = {
    { STORE, FIRST, SLOTS - 1, LAST }, { CLEAR, FIRST, 0, 0 }, { CLEAR, LAST, 0, 0 }, { COLLECT, 0, 0, 0 },
};
static const struct record queued[CALLS] = {
    { COLLECT, 0, 0, 0 }, { START, 63, 0, 0 }, { COLLECT, 0, 0, 0 }, { FINISH, 0, 0, 0 },
};

/* How many cells are freed and queued is told by the totals. */
static void run(struct pair *pair, const struct record list[CALLS], size_t all_freed, size_t all_queued)
{
    struct totals totals = some_totals(CALLS), before = totals;
    demand(pair_batch_fitting(pair, (struct records){ list, CALLS }, &totals).refused == DONE, "a batch is done");
    demand(totals.freed - before.freed == all_freed, "all cells are freed that should be");
    demand(totals.queued - before.queued == all_queued, "all cells are queued that should be");
    pair_free(pair);
}

/* Each object holds itself alone, and waits for its finalizer from the first COLLECT on. */
static struct pair all_finalizable(size_t n)
{
    enum fate fates[CELLS_MAX];
    for (size_t cell = 0; cell < n; cell++)
        fates[cell] = FINALIZABLE;
    return pair_of_fates("a batch that queues all cells", n, fates);
}

static void each_way(size_t n)
{
    struct pair by_clear = pair_made("a batch that frees all cells by CLEAR", n, make_baskets);
    run(&by_clear, cleared, n, 0);
    struct pair by_collect = pair_made("a batch that frees all cells by COLLECT", n, make_baskets);
    run(&by_collect, collected, n, 0);
    struct pair by_queue = all_finalizable(n);
    run(&by_queue, queued, 0, n);
}

void batch_large(void)
{
    for (int round = 0; round < ROUNDS; round++)
        for (size_t i = 0; i < sizeof cells / sizeof *cells; i++)
            each_way(cells[i]);
}
