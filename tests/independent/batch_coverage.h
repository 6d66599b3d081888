/* Counts what the batches have met, and says what they should have met but haven't. */
#ifndef BATCH_COVERAGE_H
#define BATCH_COVERAGE_H

#include "heap.h"

#include <stdbool.h>

/* Situations that a batch meets. */
enum batch_situation {
    BATCH_DONE,
    BATCH_SIZE,
    BATCH_DAMAGED,
    BATCH_TOTAL,
    BATCH_OF_NONE,
    BATCH_OF_ONE,
    BATCH_OF_MOST,
    BATCH_OF_ONE_TOO_MANY,
    BATCH_ON_ONE_CELL,
    BATCH_ON_MOST_CELLS,
    RECORDS_LONGER_BY_ONE,
    ANSWERS_LONGER_BY_ONE,
    RECORDS_WITHOUT_ANSWERS,
    ANSWERS_WITHOUT_RECORDS,
    SIZE_FOR_TABLES_ALONE,
    SIZE_FOR_LISTS_ALONE,
    SIZE_FOR_LISTS_AND_DAMAGED,
    SIZE_AND_TOTAL,
    DAMAGED_AND_TOTAL,
    NONE_ON_DAMAGED,
    NONE_WITH_TOTAL_AT_END,
    NONE_NULL,
    NONE_NOT_NULL,
    DONE_AT_LIMIT,                          /* of the calls done, and so on */
    DONE_AT_LIMIT_LAST = DONE_AT_LIMIT + 3,
    TOTAL_PAST_LIMIT,
    TOTAL_PAST_LIMIT_LAST = TOTAL_PAST_LIMIT + 3,
    TOTAL_PAST_16_BITS,
    TOTAL_PAST_32_BITS,
    RAISES_FOUR_NUMBERS,
    ALL_DONE,
    ALL_REFUSED,
    DONE_AFTER_REFUSED,
    DONE_AFTER_LINE,
    LINE_FIRST,
    LINE_LAST,
    LINE_FOR_CALL,
    LINE_FOR_UNUSED,
    LINE_AND_NUMBER,
    LARGEST_NUMBER,                         /* in the place of the call, and so on */
    LARGEST_NUMBER_LAST = LARGEST_NUMBER + 3,
    FREES_MANY,
    QUEUES_MANY,
    FREES_AND_QUEUES,
    CELL_USED_AGAIN,
    FINALIZER_RUN,
    COLLECT_BEFORE_FINISH,
    BATCH_SITUATIONS
};

void coverage_batch(bool so, enum batch_situation situation);

/* A record that names a call, and what it is answered. */
void coverage_record(enum op op, enum refusal refusal);

/* Prints the counts; true if nothing is lacking. */
bool batch_coverage_report(void);

#endif
