/* batches whose answers and totals are worked out by hand. */
#include "suites.h"

#include "batching.h"
#include "lines.h"

enum { CALLS = 16 };

/* Each record with the answer wanted, and by how much the totals rise: there are as many records as are done or refused. */
struct example {
    const char *name;
    size_t cells;
    struct {
        struct record record;
        struct answer want;
    } calls[CALLS];
    struct totals raise;
};

/* Different numbers, so that one that is taken for another is seen. */
static const struct totals before = { 1000, 200000, 30000000, 4000000000 };

static const struct example examples[] = {
    { "the example of document 01", 256,
      { { { NEW, 0, OBJECT, 0 }, { 0 } },
        { { NEW, 1, STRING, 0 }, { .cell = 1 } },
        { { STORE, 0, 0, 1 }, { 0 } },
        { { CLEAR, 1, 0, 0 }, { 0 } },
        { { CLEAR, 0, 0, 0 }, { .freed = 2 } } },
      { .done = 5, .freed = 2 } },
    { "refused records don't stop a batch", 1,
      { { { NEW, 0, OBJECT, 0 }, { 0 } },
        { { NEW, 0, OBJECT, 0 }, { .refused = TAKEN } },
        { { NEW, 1, BUFFER, 1 }, { .refused = NUMBER } },
        { { NEW, 1, OBJECT, 0 }, { .refused = FULL } },
        { { LOAD, 1, 1, 0 }, { .refused = EMPTY } },
        { { CLEAR, 0, 0, 0 }, { .freed = 1 } },
        { { NEW, 1, STRING, 0 }, { 0 } },
        { { STORE, 1, 0, 0 }, { .refused = KIND } },
        { { START, 0, 0, 0 }, { .refused = NONE } },
        { { FINISH, 0, 0, 0 }, { .refused = IDLE } },
        { { COPY, 0, 1, 0 }, { 0 } } },
      { .done = 4, .refused = 7, .freed = 1 } },
    { "LINE for the call's number", 2,
      { { { 9, 0, 0, 0 }, { .refused = LINE } },
        { { NEW, 0, OBJECT, 0 }, { 0 } },
        { { FRESH, 1, 0, 0 }, { .refused = LINE } },
        { { 256 + CLEAR, 0, 0, 0 }, { .refused = LINE } },
        { { 65535, 65535, 65535, 65535 }, { .refused = LINE } },
        { { NEW, 1, OBJECT, 0 }, { .cell = 1 } } },
      { .done = 2, .refused = 4 } },
    { "LINE for an unused number", 2,
      { { { NEW, 0, OBJECT, 1 }, { 0 } },
        { { CLEAR, 0, 1, 0 }, { .refused = LINE } },
        { { CLEAR, 0, 0, 65535 }, { .refused = LINE } },
        { { COPY, 1, 0, 256 }, { .refused = LINE } },
        { { COLLECT, 1, 0, 0 }, { .refused = LINE } },
        { { COLLECT, 0, 1, 0 }, { .refused = LINE } },
        { { COLLECT, 0, 0, 1 }, { .refused = LINE } },
        { { CLEAR, 0, 0, 0 }, { .queued = 1 } },
        { { START, 1, 1, 0 }, { .refused = LINE } },
        { { START, 1, 0, 1 }, { .refused = LINE } },
        { { START, 1, 0, 0 }, { 0 } },
        { { FINISH, 1, 0, 0 }, { .refused = LINE } },
        { { FINISH, 0, 32768, 0 }, { .refused = LINE } },
        { { FINISH, 0, 0, 1 }, { .refused = LINE } },
        { { FINISH, 0, 0, 0 }, { .freed = 1 } } },
      { .done = 4, .refused = 11, .freed = 1, .queued = 1 } },
    /* what names no call can't be asked further */
    { "LINE and bad otherwise", 2,
      { { { CLEAR, 64, 1, 0 }, { .refused = LINE } },
        { { CLEAR, 64, 0, 0 }, { .refused = NUMBER } },
        { { COPY, 0, 64, 1 }, { .refused = LINE } },
        { { COPY, 0, 64, 0 }, { .refused = NUMBER } },
        { { START, 65535, 0, 1 }, { .refused = LINE } },
        { { START, 65535, 0, 0 }, { .refused = NUMBER } },
        { { START, 0, 1, 0 }, { .refused = LINE } },
        { { START, 0, 0, 0 }, { .refused = NONE } },
        { { FINISH, 0, 0, 7 }, { .refused = LINE } },
        { { FINISH, 0, 0, 0 }, { .refused = IDLE } } },
      { .refused = 10 } },
    { "numbers of 16 bits", 2,
      { { { NEW, 65535, OBJECT, 0 }, { .refused = NUMBER } },
        { { NEW, 0, 65535, 0 }, { .refused = NUMBER } },
        { { NEW, 0, OBJECT, 65535 }, { .refused = NUMBER } },
        { { NEW, 256, OBJECT, 0 }, { .refused = NUMBER } },
        { { NEW, 63, OBJECT, 0 }, { 0 } },
        { { STORE, 63, 32768, 63 }, { .refused = NUMBER } },
        { { STORE, 63, 7, 65472 }, { .refused = NUMBER } },
        { { STORE, 63, 7, 63 }, { 0 } },
        { { LOAD, 0, 63, 65535 }, { .refused = NUMBER } },
        { { LOAD, 0, 63, 7 }, { 0 } } },
      { .done = 3, .refused = 7 } },
    { "a finalizer runs, and its cells are used again", 3,
      { { { NEW, 0, OBJECT, 1 }, { 0 } },
        { { NEW, 1, OBJECT, 0 }, { .cell = 1 } },
        { { STORE, 0, 0, 1 }, { 0 } },
        { { STORE, 1, 0, 1 }, { 0 } },
        { { CLEAR, 0, 0, 0 }, { .queued = 1 } },
        { { CLEAR, 1, 0, 0 }, { 0 } },
        { { START, 0, 0, 0 }, { 0 } },
        { { START, 1, 0, 0 }, { .refused = BUSY } },
        { { COLLECT, 0, 0, 0 }, { 0 } },
        { { FINISH, 0, 0, 0 }, { .freed = 1 } },
        { { NEW, 0, STRING, 0 }, { 0 } },
        { { COLLECT, 0, 0, 0 }, { .freed = 1 } },
        { { NEW, 1, STRING, 0 }, { .cell = 1 } } },
      { .done = 12, .refused = 1, .freed = 2, .queued = 1 } },
};

static struct totals raised(struct totals raise)
{
    return (struct totals){ before.done + raise.done, before.refused + raise.refused, before.freed + raise.freed,
                            before.queued + raise.queued };
}

static void play(const struct example *example)
{
    struct record records[CALLS];
    struct answer answers[CALLS];
    struct totals totals = before;
    size_t len = example->raise.done + example->raise.refused;
    pair_sequence(example->name);
    struct pair pair = pair_of(example->cells);
    for (size_t i = 0; i < len; i++)
        records[i] = example->calls[i].record;
    struct answer answer = pair_batch(&pair, (struct records){ records, len }, (struct answers){ answers, len }, &totals);
    demand(same_answer(answer, (struct answer){ 0 }), "the batch answers as FRESH does");
    demand(same_totals(totals, raised(example->raise)), "the totals rise as they should");
    for (size_t i = 0; i < len; i++)
        demand(same_answer(answers[i], example->calls[i].want), "a record has the answer that it should have");
    pair_free(&pair);
}

void batch_examples(void)
{
    for (size_t i = 0; i < sizeof examples / sizeof *examples; i++)
        play(&examples[i]);
}
