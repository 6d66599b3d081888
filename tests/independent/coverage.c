#include "coverage.h"

#include "met.h"

#include <stdio.h>

const char *const op_names[OPS] = { "FRESH", "NEW", "CLEAR", "COPY", "LOAD", "STORE", "COLLECT", "START", "FINISH" };

static const char *const landmark_names[LANDMARKS] = {
    [COLLECT_WHILE_RUNNING] = "COLLECT while a finalizer runs",
    [COLLECT_RESCUES] = "COLLECT that rescues a finalised cell",
    [COLLECT_RESCUES_AND_QUEUES] = "COLLECT that rescues a finalised cell and queues others",
    [COLLECT_POSTPONES_RESCUE] = "COLLECT that leaves a finalised cell so, because of the queue",
    [CASCADE_FREES_STRING] = "a cascade that frees a string with its holder",
    [CASCADE_FREES_BUFFER] = "a cascade that frees a buffer with its holder",
    [CASCADE_FREES_FULL_OBJECT] = "a cascade that frees an object with eight full slots with its holder",
    [COLLECT_FREES_STRING] = "COLLECT that frees a string",
    [COLLECT_FREES_BUFFER] = "COLLECT that frees a buffer",
    [COLLECT_FREES_FULL_OBJECT] = "COLLECT that frees an object with eight full slots",
    [CLEAR_OF_ONLY_REFERENCE] = "CLEAR of the only reference to a cell",
    [CLEAR_OF_ONE_OF_SEVERAL] = "CLEAR of one of several references to a cell",
    [CASCADE_TAKES_ONE_OFF_FREED] = "a cascade that takes one reference off a cell that it frees",
    [CASCADE_TAKES_SEVERAL_OFF_FREED] = "a cascade that takes several references off a cell that it frees",
    [CASCADE_TAKES_ONE_OFF_USED] = "a cascade that takes one reference off a cell that stays",
    [CASCADE_TAKES_SEVERAL_OFF_USED] = "a cascade that takes several references off a cell that stays",
    [COLLECT_TAKES_ONE_OFF_FREED] = "COLLECT that takes one reference off a cell that it frees",
    [COLLECT_TAKES_SEVERAL_OFF_FREED] = "COLLECT that takes several references off a cell that it frees",
    [COLLECT_TAKES_ONE_OFF_USED] = "COLLECT that takes one reference off a cell that stays",
    [COLLECT_TAKES_SEVERAL_OFF_USED] = "COLLECT that takes several references off a cell that stays",
    [FINISH_WITH_HEAD_IN_ROOT] = "FINISH with its cell in the running root",
    [FINISH_WITH_OTHER_IN_ROOT] = "FINISH with another cell in the running root",
    [FINISH_WITH_EMPTY_ROOT] = "FINISH with an empty running root",
    [FINISH_SURVIVED] = "FINISH on a cell that something else holds",
    [FINISH_UNHELD] = "FINISH on a cell that nothing else holds",
    [QUEUE_FULL] = "a queue of N entries",
    [NOISE_SOUND] = "random tables that are sound",
    [NOISE_DAMAGED] = "random tables that are damaged",
    [LIST_OF_NONE] = "a call done that frees nothing, with its list",
    [LIST_OF_ONE] = "a list of one freed cell",
    [LIST_IN_CELL_ORDER] = "a cascade's list of several cells in cell order",
    [LIST_IN_ANOTHER_ORDER] = "a cascade's list of several cells in another order",
    [LIST_OF_ALL] = "a list of N freed cells",
    [COLLECT_LISTS_SEVERAL] = "COLLECT that lists several cells",
    [FINISH_LISTS_BOTH] = "FINISH that lists cells freed by both of its take-offs",
    [REFUSED_WITH_LIST] = "a refusal with tables and a list that fit",
    [SIZE_BY_LIST_ALONE] = "a list that doesn't fit, with a sound heap",
    [SIZE_BY_LIST_BEFORE_DAMAGED] = "a list that doesn't fit, with a damaged heap",
    [SIZE_BY_TABLES_ALONE] = "tables that don't fit, with a list that would",
    [SIZE_BY_TABLES_AND_LIST] = "tables that don't fit, and a list that doesn't either",
    [LIST_ONE_TOO_LONG] = "a list of N + 1 entries",
    [LIST_ONE_TOO_SHORT] = "a list of N - 1 entries",
    [LIST_WITHOUT_ENTRIES] = "a list of no entries",
    [LIST_NULL] = "a list of no entries that is a null pointer",
    [LINE_DONE] = "a line whose call is done",
    [LINE_SIZE] = "a line whose call is refused SIZE",
    [LINE_DAMAGED] = "a line whose call is refused DAMAGED",
    [LINE_OTHERWISE_REFUSED] = "a line whose call is refused for another reason",
    [LINE_NO_CALL] = "a line that names no call",
    [TAKE_ENDS_WITH_CR] = "a bit that ends with a CR",
    [TAKE_WITHOUT_ROOM] = "a bit of which nothing is taken, for want of room",
    [TAKE_FILLS_ROOM] = "a bit of which the rest is not taken, for want of room",
    [END_ANSWERS] = "an end of the input that answers a line",
    [END_WITHOUT_ROOM] = "an end of the input without room to answer",
    [END_WITH_NOTHING] = "an end of the input with nothing held",
};

#define BIT(refusal) (1u << (refusal))
#define ANY_CALL (BIT(DONE) | BIT(SIZE) | BIT(DAMAGED))

/* The refusals that document 01 makes possible for each call. */
static const unsigned possible[OPS] = {
    [FRESH] = BIT(DONE) | BIT(SIZE),
    [NEW] = ANY_CALL | BIT(NUMBER) | BIT(TAKEN) | BIT(FULL),
    [CLEAR] = ANY_CALL | BIT(NUMBER),
    [COPY] = ANY_CALL | BIT(NUMBER),
    [LOAD] = ANY_CALL | BIT(NUMBER) | BIT(EMPTY) | BIT(KIND),
    [STORE] = ANY_CALL | BIT(NUMBER) | BIT(EMPTY) | BIT(KIND),
    [COLLECT] = ANY_CALL,
    [START] = ANY_CALL | BIT(NUMBER) | BIT(TAKEN) | BIT(BUSY) | BIT(NONE),
    [FINISH] = ANY_CALL | BIT(IDLE),
};

bool refusal_possible(enum op op, enum refusal refusal)
{
    return (possible[op] & BIT(refusal)) != 0;
}

static unsigned long met[OPS][REFUSALS], landmarks[LANDMARKS];
static unsigned most_freed[OPS], most_queued[OPS];

/* How much one call has to have freed and queued at least once. FINISH queues what the freed cell held. */
static const unsigned free_at_least[OPS] = {
    [CLEAR] = 1024, [COPY] = 257, [LOAD] = 257, [STORE] = 257, [COLLECT] = 1024, [FINISH] = 257,
};
static const unsigned queue_at_least[OPS] = {
    [CLEAR] = 33, [COPY] = 1, [LOAD] = 1, [STORE] = 1, [COLLECT] = 257, [FINISH] = 2,
};

/* A landmark has to be met more often than so. Those of and FINISH's of Q-5 count random calls alone, so that a
   slip there shows in many of them. */
static const unsigned long more_often_than[LANDMARKS] = {
    [COLLECT_RESCUES] = 100, [COLLECT_RESCUES_AND_QUEUES] = 100, [COLLECT_POSTPONES_RESCUE] = 100,
    [CASCADE_FREES_STRING] = 100, [CASCADE_FREES_BUFFER] = 100, [CASCADE_FREES_FULL_OBJECT] = 100,
    [COLLECT_FREES_STRING] = 100, [COLLECT_FREES_BUFFER] = 100, [COLLECT_FREES_FULL_OBJECT] = 100,
    [LIST_OF_NONE] = 100, [LIST_OF_ONE] = 100, [LIST_IN_CELL_ORDER] = 100, [LIST_IN_ANOTHER_ORDER] = 100, [LIST_OF_ALL] = 100,
    [COLLECT_LISTS_SEVERAL] = 100, [FINISH_LISTS_BOTH] = 100, [REFUSED_WITH_LIST] = 100, [SIZE_BY_LIST_ALONE] = 100,
    [SIZE_BY_LIST_BEFORE_DAMAGED] = 100, [SIZE_BY_TABLES_ALONE] = 100, [SIZE_BY_TABLES_AND_LIST] = 100,
    [LIST_ONE_TOO_LONG] = 100, [LIST_ONE_TOO_SHORT] = 100, [LIST_WITHOUT_ENTRIES] = 100, [LIST_NULL] = 100,
};

static void raise_to(unsigned *most, unsigned number)
{
    if (*most < number)
        *most = number;
}

void coverage_call(enum op op, struct answer answer)
{
    met[op][answer.refused]++;
    raise_to(&most_freed[op], answer.freed);
    raise_to(&most_queued[op], answer.queued);
}

void coverage_reply(struct reply reply)
{
    static const enum landmark known[] = { [DONE] = LINE_DONE, [SIZE] = LINE_SIZE, [DAMAGED] = LINE_DAMAGED };
    unsigned refused = reply.answer.refused;
    if (refused < REFUSALS)
        coverage_call(reply.op, reply.answer);
    coverage_landmark(refused <= DAMAGED ? known[refused] : refused < REFUSALS ? LINE_OTHERWISE_REFUSED : LINE_NO_CALL);
}

void coverage_landmark(enum landmark landmark)
{
    landmarks[landmark]++;
}

/* The calls that were answered so, of every number or of one. */
static unsigned long calls_met(enum refusal first, enum refusal last)
{
    unsigned long sum = 0;
    for (int op = 0; op < OPS; op++)
        for (int refusal = first; refusal <= (int)last; refusal++)
            sum += met[op][refusal];
    return sum;
}

static bool report_call(enum op op)
{
    bool lacks = false;
    printf("  %-8s", op_names[op]);
    for (int refusal = 0; refusal < REFUSALS; refusal++) {
        printf(" %6lu", met[op][refusal]);
        lacks |= (met[op][refusal] != 0) != refusal_possible(op, refusal);
    }
    printf("  at once freed %u, queued %u\n", most_freed[op], most_queued[op]);
    return !lacking(lacks, op_names[op], "with each refusal it can give, and no other")
        && !lacking(most_freed[op] < free_at_least[op], op_names[op], "freeing enough at once")
        && !lacking(most_queued[op] < queue_at_least[op], op_names[op], "queueing enough at once");
}

bool coverage_report(void)
{
    bool all = true;
    printf("%lu calls, %lu done; refusals 0 to 10 of each call:\n", calls_met(DONE, IDLE), calls_met(DONE, DONE));
    for (int op = 0; op < OPS; op++)
        all &= report_call(op);
    for (int landmark = 0; landmark < LANDMARKS; landmark++)
        all &= met_enough(landmark_names[landmark], landmarks[landmark], more_often_than[landmark]);
    return all;
}
