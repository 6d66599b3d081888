/* "no taking-off, at any point of a cascade, a sweep or a FINISH, meets a zero count". Where a count is too low one does,
   and the independent heap ends the run. Calls refuse such tables, so they are performed without asking for a refusal. */
#include "suites.h"

#include "apart.h"
#include "holding.h"
#include "pair.h"
#include "parts.h"

#include <stdio.h>
#include <stdlib.h>
#include <string.h>

/* The roots by what they hold, and the cells. */
enum { HEAD_ROOT, HOLDER_ROOT, KEPT_ROOT, EMPTY_ROOT };
enum { HEAD, LEAF, HOLDER, MIDDLE, DEEP, LOOSE, RING, KEPT, CELLS };

/* A call, and how many references to a cell it takes off. FINISH reads none of its numbers: the first one, which is a root in
   the other calls, is its running root. */
struct taking {
    const char *place;
    enum op op;
    size_t arg[3];
    size_t cell;
    uint16_t taken;
};

static const struct taking takings[] = {
    { "the old target of CLEAR", CLEAR, { HOLDER_ROOT }, HOLDER, 1 },
    { "the old target of COPY", COPY, { HOLDER_ROOT, KEPT_ROOT }, HOLDER, 1 },
    { "the old target of LOAD", LOAD, { HOLDER_ROOT, HEAD_ROOT, 0 }, HOLDER, 1 },
    { "the old target of STORE", STORE, { HEAD_ROOT, 0, EMPTY_ROOT }, LEAF, 1 },
    { "the first slot of a cascade", CLEAR, { HOLDER_ROOT }, MIDDLE, 1 },
    { "slots deep in a cascade", CLEAR, { HOLDER_ROOT }, DEEP, SLOTS },
    { "a cell swept after its holder", COLLECT, { 0 }, RING, SLOTS },
    { "a cell swept before its holder", COLLECT, { 0 }, LOOSE, 1 },
    { "a cell that a swept one holds and a root too", COLLECT, { 0 }, KEPT, 1 },
    { "the running root, which holds another cell", FINISH, { HOLDER_ROOT }, HOLDER, 1 },
    { "the cascade of the running root", FINISH, { HOLDER_ROOT }, DEEP, SLOTS },
    { "the bump", FINISH, { HOLDER_ROOT }, HEAD, 1 },
    { "the bump, with an empty running root", FINISH, { EMPTY_ROOT }, HEAD, 1 },
    { "the running root, which holds the head, and the bump", FINISH, { HEAD_ROOT }, HEAD, 2 },
    { "the cascade of the bump", FINISH, { HEAD_ROOT }, LEAF, 1 },
};

static void hold_in_all_slots(struct heap *heap, size_t holder, size_t cell)
{
    for (size_t slot = 0; slot < SLOTS; slot++)
        hold(heap, slot_of(heap, holder, slot), cell);
}

static void make_objects(struct heap *heap)
{
    for (size_t cell = 0; cell < CELLS; cell++)
        heap->kind.at[cell] = OBJECT;
}

/* The head of the queue holds a leaf, the holder a middle one that holds the deep one, and two hold each other in a ring to
   which no root leads. */
static void make_holders(struct heap *heap)
{
    make_objects(heap);
    heap->flags.at[HEAD] = FINALIZER;
    heap->control.at[LENGTH] = 1;
    hold(heap, &heap->queue.at[0], HEAD);
    hold(heap, &heap->roots.at[HEAD_ROOT], HEAD);
    hold(heap, &heap->roots.at[HOLDER_ROOT], HOLDER);
    hold(heap, &heap->roots.at[KEPT_ROOT], KEPT);
    hold(heap, slot_of(heap, HEAD, 0), LEAF);
    hold(heap, slot_of(heap, HOLDER, 0), MIDDLE);
    hold_in_all_slots(heap, MIDDLE, DEEP);
    hold_in_all_slots(heap, LOOSE, RING);
    hold(heap, slot_of(heap, RING, 0), LOOSE);
    hold(heap, slot_of(heap, RING, SLOTS - 1), KEPT);
}

struct trial {
    struct heap *heap;
    const struct taking *taking;
    uint16_t count;
};

static void take(const void *with)
{
    const struct trial *trial = with;
    struct request request = { .heap = trial->heap, .op = trial->taking->op };
    memcpy(request.arg, trial->taking->arg, sizeof request.arg);
    trial->heap->control.at[RUNNING] = request.arg[0] + 1;
    trial->heap->count.at[trial->taking->cell] = trial->count;
    perform(&request);
}

static bool came_to_its_end(const struct ending *ending)
{
    return ending->status == 0 && ending->printed[0] == '\0';
}

/* A stop is reported with its place, as a difference is. */
static bool stopped(const struct ending *ending, size_t cell)
{
    char words[60];
    snprintf(words, sizeof words, ": the count of cell %zu is met at zero\n", cell);
    return ending->status == 1
        && strncmp(ending->printed, "stop: ", strlen("stop: ")) == 0
        && strstr(ending->printed, words) != NULL;
}

/* None of the cells is queued where its count comes to zero, so a count that is too low is zero until it is met again. */
static void try_count(const struct trial *trial)
{
    const struct taking *taking = trial->taking;
    pair_step();
    struct ending ending = apart(take, trial);
    if (trial->count < taking->taken ? stopped(&ending, taking->cell) : came_to_its_end(&ending))
        return;
    pair_tell_place();
    printf("%s: %u taken off cell %zu, whose count is %u, ends with status %d and prints \"%s\"\n", taking->place, taking->taken,
           taking->cell, trial->count, ending.status, ending.printed);
    exit(1);
}

/* Each count that is too low, and the lowest one that isn't. */
static void try_counts(struct heap *heap, const struct taking *taking)
{
    for (uint16_t count = 0; count <= taking->taken; count++)
        try_count(&(struct trial){ heap, taking, count });
}

/* The tables are sound but for the one count, which is written in a process of its own. */
void stops(void)
{
    struct pair pair = pair_made("counts met at zero", CELLS, make_holders);
    for (size_t i = 0; i < sizeof takings / sizeof *takings; i++)
        try_counts(&pair.ours, &takings[i]);
    pair_free(&pair);
}
