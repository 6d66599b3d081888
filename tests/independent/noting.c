#include "noting.h"

#include "coverage.h"
#include "freed.h"
#include "listing.h"

#include <string.h>

static void note_clear(const struct heap *heap, size_t root)
{
    uint16_t held = root < ROOTS ? heap->roots.at[root] : 0;
    if (held != 0)
        coverage_landmark(heap->count.at[held - 1] == 1 ? CLEAR_OF_ONLY_REFERENCE : CLEAR_OF_ONE_OF_SEVERAL);
}

static void note_finish(const struct heap *heap)
{
    uint16_t running = heap->control.at[RUNNING], head = heap->queue.at[0];
    if (running == 0)
        return;
    uint16_t held = heap->roots.at[running - 1];
    coverage_landmark(held == head ? FINISH_WITH_HEAD_IN_ROOT : held == 0 ? FINISH_WITH_EMPTY_ROOT : FINISH_WITH_OTHER_IN_ROOT);
    coverage_landmark(heap->count.at[head - 1] > 1 + (held == head) ? FINISH_SURVIVED : FINISH_UNHELD);
}

static void note_situation(enum op op, size_t root, const struct heap *heap)
{
    if (op == CLEAR)
        note_clear(heap, root);
    if (op == FINISH)
        note_finish(heap);
    if (heap->control.at[LENGTH] == heap->kind.len)
        coverage_landmark(QUEUE_FULL);
}

/* Whether a cell that was finalised before the call has these flags after it. */
static bool finalised_became(const uint16_t *flags_before, const struct heap *heap, uint16_t flags)
{
    for (size_t cell = 0; cell < heap->kind.len; cell++)
        if (flags_before[cell] == (FINALIZER | FINALISED) && heap->flags.at[cell] == flags)
            return true;
    return false;
}

static void note_collect(bool running, bool queues, bool rescues, bool postpones)
{
    if (running)
        coverage_landmark(COLLECT_WHILE_RUNNING);
    if (rescues)
        coverage_landmark(COLLECT_RESCUES);
    if (rescues && queues)
        coverage_landmark(COLLECT_RESCUES_AND_QUEUES);
    if (postpones)
        coverage_landmark(COLLECT_POSTPONES_RESCUE);
}

/* "if the queue held anything when COLLECT began, no flags 3 become 1 in that COLLECT." If it held nothing, all of them
   do: a finalised cell that COLLECT doesn't free was marked. */
static struct answer noted_collect(struct pair *pair)
{
    const struct heap *heap = &pair->ours;
    bool running = heap->control.at[RUNNING] != 0, held_anything = heap->control.at[LENGTH] != 0;
    uint16_t before[CELLS_MAX];
    memcpy(before, heap->flags.at, heap->flags.len * sizeof *before);
    struct answer answer = pair_call(pair, COLLECT, 0, 0, 0);
    bool rescues = finalised_became(before, heap, FINALIZER), postpones = finalised_became(before, heap, FINALIZER | FINALISED);
    demand(!(held_anything ? rescues : postpones), "the queue decides whether COLLECT rescues");
    note_collect(running, answer.queued != 0, rescues, postpones);
    return answer;
}

static struct answer noted_finish(struct pair *pair)
{
    const struct heap *heap = &pair->ours;
    uint16_t running = heap->control.at[RUNNING], head = heap->queue.at[0];
    uint16_t held = running == 0 ? 0 : heap->roots.at[running - 1];
    struct answer answer = pair_call(pair, FINISH, 0, 0, 0);
    if (answer.refused == DONE)
        note_finish_list(&pair->freed.ours, head, held);
    return answer;
}

static struct answer noted_op(struct pair *pair, enum op op, size_t a, size_t b, size_t c)
{
    switch (op) {
    case COLLECT:
        return noted_collect(pair);
    case FINISH:
        return noted_finish(pair);
    default:
        return pair_call(pair, op, a, b, c);
    }
}

struct answer noted_call(struct pair *pair, enum op op, size_t a, size_t b, size_t c)
{
    struct before before;
    before_call(&before, &pair->ours);
    note_situation(op, a, &pair->ours);
    struct answer answer = noted_op(pair, op, a, b, c);
    if (answer.freed != 0)
        note_freed(&before, &pair->ours, op);
    if (answer.refused == DONE)
        demand(lists_freed(&pair->freed.ours, &before, &pair->ours), "the list names each freed cell once, and no other");
    return answer;
}
