/* "Counter book: twelve marked examples", and the answers that stand there. K13 to K15 are those of Q-2 in document 02, whose
   answers follow from its rule. */
#include "book.h"

#include "suites.h"

#define K6_FIRST { NEW, { 0, 1, 1 }, { 0 } }, { CLEAR, { 0 }, { .queued = 1 } }
#define K7_FIRST                                                                                              \
    K6_FIRST, { START, { 0 }, { 0 } }, { COPY, { 1, 0 }, { 0 } }, { FINISH, { 0 }, { 0 } },                   \
        { FACT, { T_COUNT, 0, 1 }, { 0 } }, { FACT, { T_FLAGS, 0, 3 }, { 0 } }

/* Fin 0 in root 0 holds fin 1, which is finalised, in slot 0, and that is fin 1's only reference. */
#define K13_FIRST                                                                                             \
    { NEW, { 0, 1, 1 }, { 0 } }, { NEW, { 1, 1, 1 }, { .cell = 1 } }, { CLEAR, { 1 }, { .queued = 1 } },      \
        { START, { 1 }, { 0 } }, { STORE, { 0, 0, 1 }, { 0 } }, { FINISH, { 0 }, { 0 } },                     \
        { FACT, { T_COUNT, 1, 1 }, { 0 } }, { FACT, { T_FLAGS, 1, 3 }, { 0 } }

const struct book_example book_examples[] = {
    { "K1", 1,
      { { NEW, { 0, 1, 0 }, { 0 } },
        { NEW, { 1, 1, 0 }, { .refused = FULL } },
        { CLEAR, { 0 }, { .freed = 1 } },
        { NEW, { 0, 1, 0 }, { 0 } } } },
    { "K2", 256,
      { { NEW, { 0, 1, 0 }, { 0 } },
        { NEW, { 1, 2, 0 }, { .cell = 1 } },
        { STORE, { 0, 0, 1 }, { 0 } },
        { CLEAR, { 1 }, { 0 } },
        { CLEAR, { 0 }, { .freed = 2 } } } },
    { "K3", 256,
      { { NEW, { 0, 1, 0 }, { 0 } },
        { COPY, { 0, 0 }, { 0 } },
        { FACT, { T_COUNT, 0, 1 }, { 0 } } } },
    { "K4", 256,
      { { NEW, { 0, 1, 0 }, { 0 } },
        { NEW, { 1, 1, 0 }, { .cell = 1 } },
        { STORE, { 0, 0, 1 }, { 0 } },
        { CLEAR, { 1 }, { 0 } },
        { LOAD, { 0, 0, 0 }, { .freed = 1 } },
        { FACT, { T_KIND, 0, FREE }, { 0 } },
        { FACT, { T_COUNT, 1, 1 }, { 0 } } } },
    { "K5", 256,
      { { NEW, { 0, 1, 0 }, { 0 } },
        { NEW, { 1, 1, 0 }, { .cell = 1 } },
        { STORE, { 0, 0, 1 }, { 0 } },
        { STORE, { 1, 0, 0 }, { 0 } },
        { CLEAR, { 0 }, { 0 } },
        { CLEAR, { 1 }, { 0 } },
        { COLLECT, { 0 }, { .freed = 2 } } } },
    { "K6", 256,
      { K6_FIRST,
        { FACT, { T_COUNT, 0, 1 }, { 0 } },
        { START, { 0 }, { 0 } },
        { FACT, { T_COUNT, 0, 2 }, { 0 } },
        { FINISH, { 0 }, { .freed = 1 } } } },
    { "K7", 256,
      { K7_FIRST,
        { CLEAR, { 1 }, { .freed = 1 } } } },
    { "K8", 256,
      { K7_FIRST,
        { COLLECT, { 0 }, { 0 } },
        { FACT, { T_FLAGS, 0, 1 }, { 0 } },
        { CLEAR, { 1 }, { .queued = 1 } } } },
    { "K9", 256,
      { { NEW, { 0, 1, 1 }, { 0 } },
        { STORE, { 0, 0, 0 }, { 0 } },
        { CLEAR, { 0 }, { 0 } },
        { COLLECT, { 0 }, { .queued = 1 } },
        { FACT, { T_COUNT, 0, 2 }, { 0 } },
        { START, { 0 }, { 0 } },
        { FINISH, { 0 }, { 0 } },
        { FACT, { T_COUNT, 0, 1 }, { 0 } },
        { FACT, { T_FLAGS, 0, 3 }, { 0 } },
        { COLLECT, { 0 }, { .freed = 1 } } } },
    { "K10", 256,
      { { NEW, { 0, 1, 0 }, { 0 } },
        { NEW, { 1, 1, 1 }, { .cell = 1 } },
        { NEW, { 2, 1, 1 }, { .cell = 2 } },
        { STORE, { 0, 0, 2 }, { 0 } },
        { STORE, { 0, 1, 1 }, { 0 } },
        { CLEAR, { 1 }, { 0 } },
        { CLEAR, { 2 }, { 0 } },
        { CLEAR, { 0 }, { .freed = 1, .queued = 2 } },
        { FACT, { T_QUEUE, 0, 2 + 1 }, { 0 } },
        { FACT, { T_QUEUE, 1, 1 + 1 }, { 0 } },
        { FACT, { T_CONTROL, LENGTH, 2 }, { 0 } } } },
    { "K11", 256,
      { { NEW, { 0, 1, 0 }, { 0 } },
        { NEW, { 1, 1, 1 }, { .cell = 1 } },
        { NEW, { 2, 2, 0 }, { .cell = 2 } },
        { STORE, { 1, 0, 2 }, { 0 } },
        { STORE, { 0, 0, 1 }, { 0 } },
        { CLEAR, { 1 }, { 0 } },
        { CLEAR, { 2 }, { 0 } },
        { CLEAR, { 0 }, { .freed = 1, .queued = 1 } },
        { FACT, { T_KIND, 2, STRING }, { 0 } },
        { COLLECT, { 0 }, { 0 } } } },
    { "K12", 256,
      { { FINISH, { 0 }, { .refused = IDLE } },
        { START, { 64 }, { .refused = NUMBER } } } },
    /* "a case where a finalised cell hangs from a queued one and keeps flags 3": it is finalised once */
    { "K13", 256,
      { K13_FIRST,
        { CLEAR, { 0 }, { .queued = 1 } },
        { COLLECT, { 0 }, { 0 } },
        { FACT, { T_FLAGS, 1, 3 }, { 0 } },
        { FACT, { T_QUEUE, 0, 0 + 1 }, { 0 } },
        { FACT, { T_CONTROL, LENGTH, 1 }, { 0 } },
        { START, { 0 }, { 0 } },
        { FINISH, { 0 }, { .freed = 2 } },
        { START, { 0 }, { .refused = NONE } } } },
    /* with an empty queue it is rescued, and finalised again */
    { "K14", 256,
      { K13_FIRST,
        { COLLECT, { 0 }, { 0 } },
        { FACT, { T_FLAGS, 1, 1 }, { 0 } },
        { CLEAR, { 0 }, { .queued = 1 } },
        { START, { 0 }, { 0 } },
        { FINISH, { 0 }, { .freed = 1, .queued = 1 } },
        { START, { 0 }, { 0 } },
        { FINISH, { 0 }, { .freed = 1 } } } },
    /* what COLLECT itself queues was not in the queue "when COLLECT began" */
    { "K15", 256,
      { K13_FIRST,
        { STORE, { 0, 1, 0 }, { 0 } },
        { CLEAR, { 0 }, { 0 } },
        { COLLECT, { 0 }, { .queued = 1 } },
        { FACT, { T_FLAGS, 1, 1 }, { 0 } },
        { FACT, { T_QUEUE, 0, 0 + 1 }, { 0 } },
        { FACT, { T_CONTROL, LENGTH, 1 }, { 0 } } } },
};

const size_t book_count = sizeof book_examples / sizeof *book_examples;

bool book_fact(struct pair *pair, const struct book_step *fact)
{
    return table_of(&pair->ours, fact->arg[0])->at[fact->arg[1]] == fact->arg[2];
}

static bool step_holds(struct pair *pair, const struct book_step *step)
{
    const size_t *arg = step->arg;
    if (step->op == FACT)
        return book_fact(pair, step);
    return same_answer(pair_call(pair, step->op, arg[0], arg[1], arg[2]), step->want);
}

static void play(const struct book_example *example)
{
    pair_sequence(example->name);
    struct pair pair = pair_of(example->cells);
    pair_call(&pair, FRESH, 0, 0, 0);
    for (const struct book_step *step = example->steps; step->op != FRESH; step++)
        demand(step_holds(&pair, step), "the book says otherwise");
    pair_free(&pair);
}

void book(void)
{
    for (size_t i = 0; i < book_count; i++)
        play(&book_examples[i]);
}
