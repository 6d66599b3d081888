#include "batch.h"

#include "lines.h"
#include "parts.h"

typedef unsigned __int128 wide;

/* "could pass its end by adding 1,024 times the list's length" */
static bool could_pass(uint64_t total, size_t len)
{
    return (wide)total + (wide)1024 * len > UINT64_MAX;
}

/* "if any of the four" */
static bool any_could_pass(const struct totals *totals, size_t len)
{
    return could_pass(totals->done, len)
        || could_pass(totals->refused, len)
        || could_pass(totals->freed, len)
        || could_pass(totals->queued, len);
}

/* "Lists of unequal length, or over 4,096 long, are SIZE, and a damaged heap is DAMAGED." TOTAL is "the last of its checks". */
static uint16_t batch_refusal(const struct heap *heap, size_t records, size_t answers, const struct totals *totals)
{
    if (!lengths_fit(heap) || records != answers || records > RECORDS_MAX)
        return SIZE;
    if (!sound(heap))
        return DAMAGED;
    return any_could_pass(totals, records) ? TOTAL : DONE;
}

/* "a record whose call number is not 1 to 8, or with an unused number above 0, is LINE" */
struct answer answer_record(struct heap *heap, struct record record)
{
    const unsigned field[FIELDS] = { record.call, record.first, record.second, record.third };
    if (is_call(field))
        return call_of(heap, field);
    return (struct answer){ .refused = LINE };
}

/* "calls done, calls refused, cells freed, cells queued". A LINE one is "a call of its own", hence a refused one. */
void add_answer(struct totals *totals, struct answer answer)
{
    if (answer.refused == DONE)
        totals->done++;
    else
        totals->refused++;
    totals->freed += answer.freed;
    totals->queued += answer.queued;
}

/* "Answers and tables are those of the single calls made one after another, refused records included, which don't stop the
   batch". It "itself answers as FRESH does". */
struct answer batch(struct heap *heap, struct records records, struct answers answers, struct totals *totals)
{
    struct answer refused = { .refused = batch_refusal(heap, records.len, answers.len, totals) };
    if (refused.refused != DONE)
        return refused;
    for (size_t i = 0; i < records.len; i++) {
        answers.at[i] = answer_record(heap, records.at[i]);
        add_answer(totals, answers.at[i]);
    }
    return (struct answer){ 0 };
}
