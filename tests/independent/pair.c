#include "pair.h"

#include "coverage.h"
#include "guarded.h"
#include "listing.h"
#include "tested.h"

#include <stdio.h>
#include <stdlib.h>

/* A call with the length of its list and both answers to it. */
struct event {
    enum op op;
    size_t list_len;
    size_t arg[3];
    struct answer ours, theirs;
};

static struct {
    unsigned long long seed;
    const char *part;
    unsigned long sequence, step;
} place;

void pair_seed(unsigned long long seed)
{
    place.seed = seed;
}

void pair_sequence(const char *part)
{
    place.part = part;
    place.sequence++;
    place.step = 0;
}

unsigned long pair_step(void)
{
    return ++place.step;
}

/* Begins a report: of what kind it is, and where. */
static void tell_place(const char *kind)
{
    printf("%s: seed %llu, part %s, sequence %lu, call %lu: ", kind, place.seed, place.part, place.sequence, place.step);
}

void pair_tell_place(void)
{
    tell_place("difference");
}

void met_at_zero(size_t cell)
{
    tell_place("stop");
    printf("the count of cell %zu is met at zero\n", cell);
    exit(1);
}

bool pair_lends_null(void)
{
    return place.sequence % 2 == 0;
}

struct pair pair_make(const size_t len[TABLES])
{
    struct pair pair = { .ours = exact_heap(len) };
    for (int t = 0; t < TABLES; t++) {
        pair.guarded[t] = guarded_room(len[t]);
        *table_of(&pair.theirs, t) = guarded_table(pair.guarded[t], len[t]);
    }
    return pair;
}

struct pair pair_of(size_t n)
{
    size_t len[TABLES];
    fitting_lengths(len, n);
    return pair_make(len);
}

void pair_free(struct pair *pair)
{
    exact_heap_free(&pair->ours);
    freed_list_free(&pair->freed);
    for (int t = 0; t < TABLES; t++)
        free(pair->guarded[t]);
}

void pair_share(struct pair *pair)
{
    copy_tables(&pair->theirs, &pair->ours);
}

/* Both heaps may be wrong in the same way; the report then differs from the others. */
void demand(bool holds, const char *what)
{
    if (holds)
        return;
    tell_place("both heaps fail");
    printf("%s\n", what);
    exit(1);
}

struct pair pair_made(const char *part, size_t n, void (*make)(struct heap *))
{
    pair_sequence(part);
    struct pair pair = pair_of(n);
    make(&pair.ours);
    pair_share(&pair);
    demand(pair_call(&pair, START, ROOTS, 0, 0).refused == NUMBER, "the tables made are sound");
    return pair;
}

void pair_tell_answer(const char *who, struct answer answer)
{
    printf("  %s answers refused %u, freed %u, queued %u, cell %u\n", who, answer.refused, answer.freed, answer.queued, answer.cell);
}

/* With what call, and what differs after it; nothing if nothing does. */
static void check(const struct event *event, const char *difference)
{
    if (difference == NULL)
        return;
    pair_tell_place();
    printf("%s %zu, %zu, %zu with room for %zu freed cells\n", op_names[event->op], event->arg[0], event->arg[1], event->arg[2],
           event->list_len);
    pair_tell_answer("the independent heap", event->ours);
    pair_tell_answer("the heap under test", event->theirs);
    printf("  %s\n", difference);
    exit(1);
}

const char *pair_difference(struct pair *pair)
{
    const char *difference = NULL;
    for (int t = 0; t < TABLES && difference == NULL; t++)
        difference = table_difference(table_names[t], table_of(&pair->ours, t), table_of(&pair->theirs, t));
    for (int t = 0; t < TABLES && difference == NULL; t++)
        difference = guard_difference(table_names[t], table_of(&pair->theirs, t), pair->guarded[t]);
    return difference;
}

bool same_answer(struct answer a, struct answer b)
{
    return a.refused == b.refused && a.freed == b.freed && a.queued == b.queued && a.cell == b.cell;
}

static const char *answer_difference(const struct event *event)
{
    return same_answer(event->ours, event->theirs) ? NULL : "the answers differ";
}

struct answer pair_call_with(struct pair *pair, size_t list_len, enum op op, size_t a, size_t b, size_t c)
{
    pair_step();
    freed_list_free(&pair->freed);
    pair->freed = freed_list_of(list_len, pair->ours.kind.len);
    struct event event = { .op = op, .list_len = list_len, .arg = { a, b, c } };
    event.ours = call(&pair->ours, pair->freed.ours, op, a, b, c);
    event.theirs = tested_call(&pair->theirs, pair->freed.theirs, op, a, b, c);
    check(&event, pair_difference(pair));
    check(&event, answer_difference(&event));
    check(&event, freed_list_difference(&pair->freed));
    coverage_call(op, event.ours);
    note_list(pair, op, event.ours);
    return event.ours;
}

struct answer pair_call(struct pair *pair, enum op op, size_t a, size_t b, size_t c)
{
    return pair_call_with(pair, pair->ours.kind.len, op, a, b, c);
}
