#include "batching.h"

#include "batch_noting.h"
#include "guarded.h"
#include "random.h"
#include "singles.h"
#include "tested.h"

#include <inttypes.h>
#include <stdio.h>
#include <stdlib.h>

/* A batch with all that came of it: the lists as they were lent to the heap under test, and as they should be then. */
struct event {
    struct batched batched;
    struct lent_lists lent, owed;
    struct answer theirs;
    struct heap before; /* the tables of the heap under test */
};

bool same_totals(struct totals a, struct totals b)
{
    return a.done == b.done && a.refused == b.refused && a.freed == b.freed && a.queued == b.queued;
}

/* Any numbers, those that might be answers, or zeros. */
static void draw(struct answers answers)
{
    const size_t limits[] = { 65536, 12, 1 };
    size_t limit = limits[below(sizeof limits / sizeof *limits)];
    for (size_t i = 0; i < answers.len; i++)
        answers.at[i] = (struct answer){ below(limit), below(limit), below(limit), below(limit) };
}

/* Ends the program if there is a difference. `by` says whose numbers stand beside the independent ones. */
static void check(const struct event *event, const char *by, const char *difference)
{
    const struct batched *batched = &event->batched;
    struct totals before = batched->before;
    if (difference == NULL)
        return;
    pair_tell_place();
    printf("batch of %zu records with room for %zu answers\n", batched->records.len, batched->answers.len);
    printf("  with totals %" PRIu64 ",%" PRIu64 ",%" PRIu64 ",%" PRIu64 "\n", before.done, before.refused, before.freed,
           before.queued);
    pair_tell_answer("the independent batch", batched->answer);
    pair_tell_answer("the batch under test", event->theirs);
    printf("  by %s: %s\n", by, difference);
    exit(1);
}

static void check_batch(const struct event *event, struct pair *pair)
{
    bool same = same_answer(event->batched.answer, event->theirs);
    check(event, "batch", pair_difference(pair));
    check(event, "batch", same ? NULL : "the answers of the batches differ");
    check(event, "batch", lent_lists_difference(&event->lent, &event->owed));
}

static const char *answers_difference(const struct answers *ours, const struct answers *theirs)
{
    static char words[60];
    size_t i = 0;
    while (i < ours->len && same_answer(ours->at[i], theirs->at[i]))
        i++;
    snprintf(words, sizeof words, "first differing answer: %zu", i);
    return i == ours->len ? NULL : words;
}

/* The tables of both heaps are the same by now. */
static void check_singles(struct event *event, struct pair *pair)
{
    const struct batched *batched = &event->batched;
    struct singles singles = singles_of(&event->before, batched->records, batched->before);
    bool same = same_totals(batched->after, singles.totals);
    check(event, "single calls", answers_difference(&batched->answers, &singles.answers));
    check(event, "single calls", same ? NULL : "the totals differ");
    for (int t = 0; t < TABLES; t++)
        check(event, "single calls", table_difference(table_names[t], table_of(&pair->ours, t), table_of(&singles.heap, t)));
    singles_free(&singles);
}

static void end_event(struct event *event)
{
    lent_lists_free(&event->lent);
    lent_lists_free(&event->owed);
    exact_heap_free(&event->before);
}

struct answer pair_batch(struct pair *pair, struct records records, struct answers answers, struct totals *totals)
{
    struct event event = { .batched = { &pair->ours, records, answers, .before = *totals }, .before = exact_copy(&pair->theirs) };
    uint8_t fill = below(256);
    pair_step();
    draw(answers);
    event.lent = lent_lists_of(records, answers, totals, fill);
    event.batched.answer = batch(&pair->ours, records, answers, totals);
    event.batched.after = *totals;
    event.owed = lent_lists_of(records, answers, totals, fill);
    event.theirs = tested_batch(&pair->theirs, &event.lent);
    check_batch(&event, pair);
    if (event.batched.answer.refused == DONE)
        check_singles(&event, pair);
    note_batch(&event.batched);
    end_event(&event);
    return event.batched.answer;
}

struct answer pair_batch_with(struct pair *pair, struct records records, size_t answers, struct totals *totals)
{
    struct answers room = { answers == 0 ? NULL : malloc(answers * sizeof *room.at), answers };
    struct answer answer = pair_batch(pair, records, room, totals);
    free(room.at);
    return answer;
}

struct answer pair_batch_fitting(struct pair *pair, struct records records, struct totals *totals)
{
    return pair_batch_with(pair, records, records.len, totals);
}
