/* FRESH and "The eight calls". Each is performed only when no refusal is given. */
#include "parts.h"

#include <string.h>

/* "Writes (2 to 5): raise the new target's count, write, then take one off the old target." */
static void write_entry(struct run *run, uint16_t *entry, uint16_t ref)
{
    uint16_t old = *entry;
    incref(run->heap, ref);
    *entry = ref;
    take_off(run, old);
}

/* "the lowest free cell, count 1, placed in the root" */
static void do_new(struct run *run, const size_t arg[3])
{
    struct heap *heap = run->heap;
    size_t cell = lowest_free(heap);
    heap->kind.at[cell] = arg[1];
    heap->flags.at[cell] = arg[2] == 1 ? FINALIZER : 0;
    heap->count.at[cell] = 1;
    heap->roots.at[arg[0]] = cell + 1;
    run->answer.cell = cell;
}

static void do_clear(struct run *run, const size_t arg[3])
{
    write_entry(run, &run->heap->roots.at[arg[0]], 0);
}

/* "COPY to-root, from-root" */
static void do_copy(struct run *run, const size_t arg[3])
{
    uint16_t *roots = run->heap->roots.at;
    write_entry(run, &roots[arg[0]], roots[arg[1]]);
}

/* "LOAD to-root, object-root, slot" */
static void do_load(struct run *run, const size_t arg[3])
{
    uint16_t *roots = run->heap->roots.at;
    size_t object = roots[arg[1]] - 1;
    write_entry(run, &roots[arg[0]], *slot_of(run->heap, object, arg[2]));
}

/* "STORE object-root, slot, from-root" */
static void do_store(struct run *run, const size_t arg[3])
{
    uint16_t *roots = run->heap->roots.at;
    size_t object = roots[arg[0]] - 1;
    write_entry(run, slot_of(run->heap, object, arg[1]), roots[arg[2]]);
}

static void do_collect(struct run *run, const size_t arg[3])
{
    (void)arg;
    collect(run);
}

/* "the head of the queue is placed in the root, its count rises by 1, the root becomes the running root. The queue
   stays." */
static void do_start(struct run *run, const size_t arg[3])
{
    struct heap *heap = run->heap;
    uint16_t head = heap->queue.at[0];
    heap->roots.at[arg[0]] = head;
    incref(heap, head);
    heap->control.at[RUNNING] = arg[0] + 1;
}

static uint16_t dequeue(struct heap *heap)
{
    uint16_t head = heap->queue.at[0];
    size_t rest = --heap->control.at[LENGTH];
    memmove(heap->queue.at, heap->queue.at + 1, rest * sizeof head);
    heap->queue.at[rest] = 0;
    return head;
}

/* "the head leaves the queue and gets the finalised flag; the running root becomes none; that root is emptied,
   whatever it holds by now, with a full take-off; then the bump is taken off the cell with another." */
static void do_finish(struct run *run, const size_t arg[3])
{
    struct heap *heap = run->heap;
    size_t root = heap->control.at[RUNNING] - 1;
    uint16_t head = dequeue(heap);
    (void)arg;
    heap->flags.at[head - 1] |= FINALISED;
    heap->control.at[RUNNING] = 0;
    write_entry(run, &heap->roots.at[root], 0);
    take_off(run, head);
}

static void (*const calls[OPS])(struct run *, const size_t arg[3]) = {
    [NEW] = do_new,
    [CLEAR] = do_clear,
    [COPY] = do_copy,
    [LOAD] = do_load,
    [STORE] = do_store,
    [COLLECT] = do_collect,
    [START] = do_start,
    [FINISH] = do_finish,
};

/* "freed (cells used before and free after)" */
static uint16_t freed(const struct heap *heap, const uint16_t *kind_before)
{
    uint16_t cells = 0;
    for (size_t cell = 0; cell < heap->kind.len; cell++)
        if (kind_before[cell] != FREE && heap->kind.at[cell] == FREE)
            cells++;
    return cells;
}

/* "its first "freed" entries are the freed cells' references in the order in which they became zeros, COLLECT's in cell
   order, and the rest are 0" */
static void give_list(const struct table *freed, const struct run *run)
{
    for (size_t i = 0; i < freed->len; i++)
        freed->at[i] = i < run->listed ? run->freed[i] : 0;
}

struct answer perform(const struct request *request)
{
    struct run run = { .heap = request->heap };
    const struct table *kind = &request->heap->kind;
    uint16_t kind_before[CELLS_MAX];
    memcpy(kind_before, kind->at, kind->len * sizeof *kind->at);
    calls[request->op](&run, request->arg);
    run.answer.freed = freed(request->heap, kind_before);
    give_list(&request->freed, &run);
    return run.answer;
}

static void zero(const struct table *table)
{
    memset(table->at, 0, table->len * sizeof *table->at);
}

/* "it sets every entry to 0, whatever stood there, and then answers refusal 0, freed 0, queued 0, cell 0". This is not the
   freeing step: the slots of strings become 0 too. */
static struct answer fresh(struct heap *heap)
{
    zero(&heap->kind);
    zero(&heap->flags);
    zero(&heap->count);
    zero(&heap->slots);
    zero(&heap->roots);
    zero(&heap->queue);
    zero(&heap->control);
    return (struct answer){ 0 };
}

/* "A refusal changes no table entry and answers freed 0, queued 0, cell 0." Q-5 says of its table: "After a refusal it is as
   before." */
struct answer call(struct heap *heap, struct table freed, enum op op, size_t a, size_t b, size_t c)
{
    struct request request = { heap, freed, op, { a, b, c } };
    struct answer refused = { .refused = refusal(&request) };
    if (refused.refused != DONE)
        return refused;
    return op == FRESH ? fresh(heap) : perform(&request);
}
