#include "batch_coverage.h"

#include "coverage.h"
#include "met.h"

#include <stdio.h>

static const char *const names[BATCH_SITUATIONS] = {
    [BATCH_DONE] = "a batch that is done",
    [BATCH_SIZE] = "a batch refused SIZE",
    [BATCH_DAMAGED] = "a batch refused DAMAGED",
    [BATCH_TOTAL] = "a batch refused TOTAL",
    [BATCH_OF_NONE] = "a batch of no records that is done",
    [BATCH_OF_ONE] = "a batch of one record that is done",
    [BATCH_OF_MOST] = "a batch of 4,096 records that is done",
    [BATCH_OF_ONE_TOO_MANY] = "a batch of 4,097 records that is refused for this alone",
    [BATCH_ON_ONE_CELL] = "a batch that is done on one cell",
    [BATCH_ON_MOST_CELLS] = "a batch that is done on 1,024 cells",
    [RECORDS_LONGER_BY_ONE] = "one record more than answers",
    [ANSWERS_LONGER_BY_ONE] = "one answer more than records",
    [RECORDS_WITHOUT_ANSWERS] = "records and no answers",
    [ANSWERS_WITHOUT_RECORDS] = "answers and no records",
    [SIZE_FOR_TABLES_ALONE] = "SIZE for the heap's tables alone",
    [SIZE_FOR_LISTS_ALONE] = "SIZE for the lists alone",
    [SIZE_FOR_LISTS_AND_DAMAGED] = "SIZE for the lists where it would be DAMAGED",
    [SIZE_AND_TOTAL] = "SIZE where it would be TOTAL",
    [DAMAGED_AND_TOTAL] = "DAMAGED where it would be TOTAL",
    [NONE_ON_DAMAGED] = "no records on a damaged heap",
    [NONE_WITH_TOTAL_AT_END] = "no records and a total that is at its end",
    [NONE_NULL] = "no records and no answers, both null pointers",
    [NONE_NOT_NULL] = "no records and no answers, neither a null pointer",
    [DONE_AT_LIMIT] = "a batch done with the calls done just at the limit",
    [DONE_AT_LIMIT + 1] = "a batch done with the calls refused just at the limit",
    [DONE_AT_LIMIT + 2] = "a batch done with the cells freed just at the limit",
    [DONE_AT_LIMIT + 3] = "a batch done with the cells queued just at the limit",
    [TOTAL_PAST_LIMIT] = "TOTAL for the calls done alone, by one",
    [TOTAL_PAST_LIMIT + 1] = "TOTAL for the calls refused alone, by one",
    [TOTAL_PAST_LIMIT + 2] = "TOTAL for the cells freed alone, by one",
    [TOTAL_PAST_LIMIT + 3] = "TOTAL for the cells queued alone, by one",
    [TOTAL_PAST_16_BITS] = "a total that passes 16 bits",
    [TOTAL_PAST_32_BITS] = "a total that passes 32 bits",
    [RAISES_FOUR_NUMBERS] = "totals raised by four different numbers",
    [ALL_DONE] = "a batch whose records are all done",
    [ALL_REFUSED] = "a batch whose records are all refused",
    [DONE_AFTER_REFUSED] = "a record done after a refused one",
    [DONE_AFTER_LINE] = "a record done after a LINE one",
    [LINE_FIRST] = "a LINE record that is the first of several",
    [LINE_LAST] = "a LINE record that is the last of several",
    [LINE_FOR_CALL] = "a record that is LINE for its call's number",
    [LINE_FOR_UNUSED] = "a record that is LINE for an unused number",
    [LINE_AND_NUMBER] = "a record that is LINE for an unused number, and bad otherwise too",
    [LARGEST_NUMBER] = "the number 65,535 for a call",
    [LARGEST_NUMBER + 1] = "the number 65,535 in the first place after the call",
    [LARGEST_NUMBER + 2] = "the number 65,535 in the second place after the call",
    [LARGEST_NUMBER + 3] = "the number 65,535 in the third place after the call",
    [FREES_MANY] = "a record that frees more than 255 cells",
    [QUEUES_MANY] = "a record that queues more than 255 cells",
    [FREES_AND_QUEUES] = "a record that frees cells and queues others",
    [CELL_USED_AGAIN] = "two NEWs of a batch that give the same cell",
    [FINALIZER_RUN] = "a START and its FINISH in a batch",
    [COLLECT_BEFORE_FINISH] = "a COLLECT between a START and its FINISH in a batch",
};

/* A situation has to be met more often than so: a slip there shows in many batches. */
enum { MORE_OFTEN_THAN = 20 };

static unsigned long met[BATCH_SITUATIONS], answered[OPS][REFUSALS];

void coverage_batch(bool so, enum batch_situation situation)
{
    met[situation] += so;
}

void coverage_record(enum op op, enum refusal refusal)
{
    answered[op][refusal]++;
}

/* A heap that a batch is done on has lengths that fit and is sound, so no record of it is refused SIZE or DAMAGED. */
static bool report_records(enum op op)
{
    bool lacks = false;
    printf("  %-8s", op_names[op]);
    for (int refusal = 0; refusal < REFUSALS; refusal++) {
        bool possible = refusal_possible(op, refusal) && refusal != SIZE && refusal != DAMAGED;
        printf(" %6lu", answered[op][refusal]);
        lacks |= (answered[op][refusal] > MORE_OFTEN_THAN) != possible;
    }
    printf("\n");
    return !lacking(lacks, op_names[op], "in batches with each refusal it can give there, and no other");
}

bool batch_coverage_report(void)
{
    bool all = true;
    printf("batches; refusals 0 to 10 of the records of each call:\n");
    for (int op = NEW; op < OPS; op++)
        all &= report_records(op);
    for (int situation = 0; situation < BATCH_SITUATIONS; situation++)
        all &= met_enough(names[situation], met[situation], MORE_OFTEN_THAN);
    return all;
}
