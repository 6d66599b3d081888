/* Several faults at once: "the lowest number". SIZE comes before DAMAGED, and TOTAL is "the last of its checks". */
#include "suites.h"

#include "batching.h"
#include "random.h"
#include "records.h"
#include "totals.h"

/* Faults, each of which may stand beside any other; all sets of them are tried. */
enum fault { TABLE_LONGER = 1, RECORD_MORE = 2, ANSWER_MORE = 4, TOO_MANY = 8, COUNT_OFF = 16, TOTAL_AT_END = 32, SETS = 64 };

static const size_t cells[] = { 1, 2, 3, 4, 64, CELLS_MAX };

/* One record more and one answer more leave lists of equal length. */
static uint16_t lowest(unsigned faults)
{
    bool unequal = !(faults & RECORD_MORE) != !(faults & ANSWER_MORE);
    if (faults & (TABLE_LONGER | TOO_MANY) || unequal)
        return SIZE;
    if (faults & COUNT_OFF)
        return DAMAGED;
    return faults & TOTAL_AT_END ? TOTAL : DONE;
}

static struct pair faulty_pair(size_t n, unsigned faults)
{
    size_t len[TABLES];
    fitting_lengths(len, n);
    len[T_QUEUE] += (faults & TABLE_LONGER) != 0;
    struct pair pair = pair_make(len);
    if (faults & COUNT_OFF)
        pair.ours.count.at[n - 1] = 1;
    pair_share(&pair);
    return pair;
}

static void try_faults(size_t n, unsigned faults)
{
    size_t len = 1 + below(9) + (faults & TOO_MANY ? RECORDS_MAX : 0);
    struct totals totals = { 10, 20, 30, 40 };
    pair_sequence("several faults at once");
    struct pair pair = faulty_pair(n, faults);
    struct records records = blind_records(len + ((faults & RECORD_MORE) != 0));
    if (faults & TOTAL_AT_END)
        *total_at(&totals, below(TOTALS)) = UINT64_MAX;
    struct answer answer = pair_batch_with(&pair, records, len + ((faults & ANSWER_MORE) != 0), &totals);
    demand(same_answer(answer, (struct answer){ .refused = lowest(faults) }), "of several refusals the lowest is given");
    records_free(&records);
    pair_free(&pair);
}

void batch_refusals(void)
{
    for (size_t i = 0; i < sizeof cells / sizeof *cells; i++)
        for (unsigned faults = 0; faults < SETS; faults++)
            try_faults(cells[i], faults);
}
