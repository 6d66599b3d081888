/* Counts what the comparison has met, and says what it should have met but hasn't. */
#ifndef COVERAGE_H
#define COVERAGE_H

#include "lines.h"

#include <stdbool.h>

extern const char *const op_names[OPS];

/* Whether a call can be refused so. */
bool refusal_possible(enum op op, enum refusal refusal);

/* Situations that the answers of a single call don't tell. */
enum landmark {
    COLLECT_WHILE_RUNNING,
    COLLECT_RESCUES,
    COLLECT_RESCUES_AND_QUEUES,
    COLLECT_POSTPONES_RESCUE,
    CASCADE_FREES_STRING,
    CASCADE_FREES_BUFFER,
    CASCADE_FREES_FULL_OBJECT,
    COLLECT_FREES_STRING,
    COLLECT_FREES_BUFFER,
    COLLECT_FREES_FULL_OBJECT,
    CLEAR_OF_ONLY_REFERENCE,
    CLEAR_OF_ONE_OF_SEVERAL,
    CASCADE_TAKES_ONE_OFF_FREED,
    CASCADE_TAKES_SEVERAL_OFF_FREED,
    CASCADE_TAKES_ONE_OFF_USED,
    CASCADE_TAKES_SEVERAL_OFF_USED,
    COLLECT_TAKES_ONE_OFF_FREED,
    COLLECT_TAKES_SEVERAL_OFF_FREED,
    COLLECT_TAKES_ONE_OFF_USED,
    COLLECT_TAKES_SEVERAL_OFF_USED,
    FINISH_WITH_HEAD_IN_ROOT,
    FINISH_WITH_OTHER_IN_ROOT,
    FINISH_WITH_EMPTY_ROOT,
    FINISH_SURVIVED,
    FINISH_UNHELD,
    QUEUE_FULL,
    NOISE_SOUND,
    NOISE_DAMAGED,
    LIST_OF_NONE,
    LIST_OF_ONE,
    LIST_IN_CELL_ORDER,
    LIST_IN_ANOTHER_ORDER,
    LIST_OF_ALL,
    COLLECT_LISTS_SEVERAL,
    FINISH_LISTS_BOTH,
    REFUSED_WITH_LIST,
    SIZE_BY_LIST_ALONE,
    SIZE_BY_LIST_BEFORE_DAMAGED,
    SIZE_BY_TABLES_ALONE,
    SIZE_BY_TABLES_AND_LIST,
    LIST_ONE_TOO_LONG,
    LIST_ONE_TOO_SHORT,
    LIST_WITHOUT_ENTRIES,
    LIST_NULL,
    LINE_DONE,
    LINE_SIZE,
    LINE_DAMAGED,
    LINE_OTHERWISE_REFUSED,
    LINE_NO_CALL,
    TAKE_ENDS_WITH_CR,
    TAKE_WITHOUT_ROOM,
    TAKE_FILLS_ROOM,
    END_ANSWERS,
    END_WITHOUT_ROOM,
    END_WITH_NOTHING,
    LANDMARKS
};

void coverage_call(enum op op, struct answer answer);
void coverage_reply(struct reply reply);
void coverage_landmark(enum landmark landmark);

/* Prints the counts; true if nothing is lacking. */
bool coverage_report(void);

#endif
