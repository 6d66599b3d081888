#include "batch_noting.h"

#include "batch_coverage.h"
#include "lines.h"
#include "pair.h"
#include "parts.h"
#include "records.h"
#include "totals.h"

/* How many of the totals are past the limit. */
static int past_limit(const struct batched *batched)
{
    int past = 0;
    for (size_t place = 0; place < TOTALS; place++)
        past += total_of(batched->before, place) > total_limit(batched->records.len);
    return past;
}

static void note_limits(const struct batched *batched)
{
    uint64_t limit = total_limit(batched->records.len);
    bool done = batched->answer.refused == DONE, past_alone = batched->answer.refused == TOTAL && past_limit(batched) == 1;
    for (size_t place = 0; place < TOTALS && batched->records.len > 0; place++) {
        uint64_t total = total_of(batched->before, place);
        coverage_batch(done && total == limit, DONE_AT_LIMIT + place);
        coverage_batch(past_alone && total == limit + 1, TOTAL_PAST_LIMIT + place);
    }
}

static uint64_t raise_of(const struct batched *batched, size_t place)
{
    return total_of(batched->after, place) - total_of(batched->before, place);
}

/* Whether a total that this many bits could hold needs more now. */
static bool passes(const struct batched *batched, uint64_t largest)
{
    bool passes = false;
    for (size_t place = 0; place < TOTALS; place++)
        passes |= total_of(batched->before, place) <= largest && total_of(batched->after, place) > largest;
    return passes;
}

static bool raises_differ(const struct batched *batched)
{
    bool differ = true;
    for (size_t place = 0; place < TOTALS; place++)
        for (size_t other = 0; other < place; other++)
            differ &= raise_of(batched, place) != raise_of(batched, other);
    return differ;
}

static void note_raise(const struct batched *batched)
{
    bool at_end = false;
    for (size_t place = 0; place < TOTALS; place++)
        at_end |= total_of(batched->before, place) == UINT64_MAX;
    coverage_batch(passes(batched, UINT16_MAX), TOTAL_PAST_16_BITS);
    coverage_batch(passes(batched, UINT32_MAX), TOTAL_PAST_32_BITS);
    coverage_batch(raises_differ(batched), RAISES_FOUR_NUMBERS);
    coverage_batch(at_end && batched->records.len == 0, NONE_WITH_TOTAL_AT_END);
}

/* What a call that leaves numbers unused does use are roots. */
static void note_line(struct record record)
{
    bool named = record.call >= NEW && record.call <= FINISH;
    coverage_batch(!named, LINE_FOR_CALL);
    coverage_batch(named, LINE_FOR_UNUSED);
    coverage_batch(named && arguments_of(record.call) > 0 && record.first >= ROOTS, LINE_AND_NUMBER);
}

static void note_record(struct record record, struct answer answer)
{
    for (size_t place = 0; place < PLACES; place++)
        coverage_batch(*number_at(&record, place) == UINT16_MAX, LARGEST_NUMBER + place);
    coverage_batch(answer.freed > UINT8_MAX, FREES_MANY);
    coverage_batch(answer.queued > UINT8_MAX, QUEUES_MANY);
    coverage_batch(answer.freed > 0 && answer.queued > 0, FREES_AND_QUEUES);
    if (answer.refused == LINE)
        note_line(record);
    else
        coverage_record(record.call, answer.refused);
}

/* What a record is answered after others of the same batch. */
static void note_order(const struct records *records, const struct answers *answers)
{
    bool refused = false, line = false, after_refused = false, after_line = false;
    for (size_t i = 0; i < records->len; i++) {
        bool done = answers->at[i].refused == DONE;
        after_refused |= done && refused;
        after_line |= done && line;
        refused |= !done;
        line |= answers->at[i].refused == LINE;
    }
    coverage_batch(after_refused, DONE_AFTER_REFUSED);
    coverage_batch(after_line, DONE_AFTER_LINE);
}

static void note_finalizers(const struct records *records, const struct answers *answers)
{
    bool started = false, collected = false, finished = false, both = false;
    for (size_t i = 0; i < records->len; i++) {
        uint16_t op = answers->at[i].refused == DONE ? records->at[i].call : FRESH;
        finished |= started && op == FINISH;
        both |= started && collected && op == FINISH;
        collected = op == COLLECT || (collected && op != START);
        started = op == START || (started && op != FINISH);
    }
    coverage_batch(finished, FINALIZER_RUN);
    coverage_batch(both, COLLECT_BEFORE_FINISH);
}

static void note_cells(const struct records *records, const struct answers *answers)
{
    bool given[CELLS_MAX] = { false }, again = false;
    for (size_t i = 0; i < records->len; i++)
        if (records->at[i].call == NEW && answers->at[i].refused == DONE) {
            again |= given[answers->at[i].cell];
            given[answers->at[i].cell] = true;
        }
    coverage_batch(again, CELL_USED_AGAIN);
}

static void note_length(const struct batched *batched)
{
    size_t len = batched->records.len, cells = batched->heap->kind.len;
    coverage_batch(len == 0, BATCH_OF_NONE);
    coverage_batch(len == 0, pair_lends_null() ? NONE_NULL : NONE_NOT_NULL);
    coverage_batch(len == 1, BATCH_OF_ONE);
    coverage_batch(len == RECORDS_MAX, BATCH_OF_MOST);
    coverage_batch(len > 0 && cells == 1, BATCH_ON_ONE_CELL);
    coverage_batch(len > 0 && cells == CELLS_MAX, BATCH_ON_MOST_CELLS);
}

static void note_done(const struct batched *batched)
{
    const struct records *records = &batched->records;
    const struct answers *answers = &batched->answers;
    size_t len = records->len;
    for (size_t i = 0; i < len; i++)
        note_record(records->at[i], answers->at[i]);
    note_length(batched);
    note_raise(batched);
    note_order(records, answers);
    note_finalizers(records, answers);
    note_cells(records, answers);
    coverage_batch(len > 1 && batched->after.refused == batched->before.refused, ALL_DONE);
    coverage_batch(len > 1 && batched->after.done == batched->before.done, ALL_REFUSED);
    coverage_batch(len > 1 && answers->at[0].refused == LINE, LINE_FIRST);
    coverage_batch(len > 1 && answers->at[len - 1].refused == LINE, LINE_LAST);
}

static void note_size(const struct batched *batched)
{
    const struct heap *heap = batched->heap;
    size_t records = batched->records.len, answers = batched->answers.len;
    bool fits = lengths_fit(heap), lists_fit = records == answers && records <= RECORDS_MAX, alone = fits && sound(heap);
    bool could_pass = past_limit(batched) > 0;
    coverage_batch(!fits && lists_fit && !could_pass, SIZE_FOR_TABLES_ALONE);
    coverage_batch(alone && !lists_fit && !could_pass, SIZE_FOR_LISTS_ALONE);
    coverage_batch(fits && !alone, SIZE_FOR_LISTS_AND_DAMAGED);
    coverage_batch(could_pass, SIZE_AND_TOTAL);
    coverage_batch(alone && !could_pass && records == answers && records == RECORDS_MAX + 1, BATCH_OF_ONE_TOO_MANY);
    coverage_batch(alone && records == answers + 1 && records <= RECORDS_MAX, RECORDS_LONGER_BY_ONE);
    coverage_batch(alone && answers == records + 1 && answers <= RECORDS_MAX, ANSWERS_LONGER_BY_ONE);
    coverage_batch(alone && answers == 0, RECORDS_WITHOUT_ANSWERS);
    coverage_batch(alone && records == 0, ANSWERS_WITHOUT_RECORDS);
}

void note_batch(const struct batched *batched)
{
    uint16_t refused = batched->answer.refused;
    coverage_batch(refused == DONE, BATCH_DONE);
    coverage_batch(refused == SIZE, BATCH_SIZE);
    coverage_batch(refused == DAMAGED, BATCH_DAMAGED);
    coverage_batch(refused == TOTAL, BATCH_TOTAL);
    coverage_batch(refused == DAMAGED && past_limit(batched) > 0, DAMAGED_AND_TOTAL);
    coverage_batch(refused == DAMAGED && batched->records.len == 0, NONE_ON_DAMAGED);
    note_limits(batched);
    if (refused == DONE)
        note_done(batched);
    if (refused == SIZE)
        note_size(batched);
}
