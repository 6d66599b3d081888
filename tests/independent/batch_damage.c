/* "a damaged heap is DAMAGED". Heaps that are sound but for a single clause are lent to batches. */
#include "suites.h"

#include "batching.h"
#include "damaged.h"
#include "random.h"
#include "records.h"
#include "totals.h"

/* The first record would be refused as NUMBER on a sound heap: it shows a clause that is left out without following any
   reference. */
static void batch_on_damaged(struct pair *pair)
{
    static const struct record start = { START, ROOTS, 0, 0 };
    struct totals totals = some_totals(RECORDS_MAX), at_end = { 1, 2, 3, UINT64_MAX };
    struct records records = blind_records(below(8));
    demand(pair_batch_fitting(pair, (struct records){ &start, 1 }, &totals).refused == DAMAGED, "a damaged heap is refused");
    demand(pair_batch_fitting(pair, (struct records){ NULL, 0 }, &totals).refused == DAMAGED, "so it is with no records");
    demand(pair_batch_fitting(pair, records, &totals).refused == DAMAGED, "so it is with any");
    demand(pair_batch_fitting(pair, (struct records){ &start, 1 }, &at_end).refused == DAMAGED, "so it is with any totals");
    demand(pair_batch_with(pair, records, records.len + 1, &at_end).refused == SIZE, "lists that don't fit are refused first");
    demand(pair_call(pair, FRESH, 0, 0, 0).refused == DONE, "FRESH is done on damaged tables");
    demand(pair_batch_fitting(pair, records, &totals).refused == DONE, "a batch is done on a fresh heap");
    records_free(&records);
}

void batch_damage(void)
{
    each_damaged(batch_on_damaged);
}
