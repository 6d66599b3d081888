#include "choice.h"

#include "made.h"
#include "misfits.h"
#include "noting.h"
#include "random.h"

static const unsigned weights[MOODS][OPS] = {
    [FILLING] = { [NEW] = 38, [CLEAR] = 8, [COPY] = 8, [LOAD] = 6, [STORE] = 34, [COLLECT] = 2, [START] = 2, [FINISH] = 2 },
    [CUTTING] = { [NEW] = 12, [CLEAR] = 25, [COPY] = 15, [LOAD] = 16, [STORE] = 16, [COLLECT] = 6, [START] = 5, [FINISH] = 5 },
    [FINALIZING] = { [NEW] = 16, [CLEAR] = 18, [COPY] = 8, [LOAD] = 7, [STORE] = 14, [COLLECT] = 8, [START] = 16, [FINISH] = 13 },
};

static enum op some_op(enum mood mood)
{
    size_t at = below(100);
    enum op op = FRESH;
    while (at >= weights[mood][op])
        at -= weights[mood][op++];
    return op;
}

/* Few roots for few cells, so that calls meet the same cells again; the last root is among them. */
static size_t any_root(const struct heap *heap)
{
    size_t lively = heap->kind.len < ROOTS - 2 ? heap->kind.len + 2 : ROOTS;
    size_t root = below(lively);
    return root == 1 ? ROOTS - 1 : root;
}

static bool holds_nothing(const struct heap *heap, size_t root)
{
    return heap->roots.at[root] == 0;
}

static bool holds_something(const struct heap *heap, size_t root)
{
    return heap->roots.at[root] != 0;
}

static bool holds_object(const struct heap *heap, size_t root)
{
    uint16_t ref = heap->roots.at[root];
    return ref != 0 && heap->kind.at[ref - 1] == OBJECT;
}

/* A root that suits, if a few tries find one. */
static size_t root_that(const struct heap *heap, bool (*suits)(const struct heap *, size_t))
{
    size_t root = any_root(heap);
    for (int tries = 0; tries < 12 && !suits(heap, root); tries++)
        root = any_root(heap);
    return root;
}

/* Mostly few slots, so that what stands there is overwritten. */
static size_t any_slot(void)
{
    return chance(70) ? below(3) : below(SLOTS);
}

/* Most calls that would be refused for what the heap holds give way to one that gets further. */
static enum op sensible(enum op op, const struct heap *heap)
{
    bool running = heap->control.at[RUNNING] != 0, queue = heap->control.at[LENGTH] != 0;
    if (op == START && running)
        return FINISH;
    if (op == FINISH && !running)
        return queue ? START : CLEAR;
    if (op == START && !queue)
        return LOAD;
    return op;
}

static void choose_new(struct wish *wish, const struct heap *heap)
{
    wish->arg[0] = root_that(heap, holds_nothing);
    wish->arg[1] = chance(70) ? OBJECT : OBJECT + below(3);
    wish->arg[2] = wish->arg[1] == OBJECT ? below(2) : chance(3);
}

static void choose_arguments(struct wish *wish, const struct heap *heap)
{
    size_t *arg = wish->arg;
    switch (wish->op) {
    case NEW:
        choose_new(wish, heap);
        break;
    case LOAD:
        arg[0] = any_root(heap), arg[1] = root_that(heap, holds_object), arg[2] = any_slot();
        break;
    case STORE:
        arg[0] = root_that(heap, holds_object), arg[1] = any_slot(), arg[2] = any_root(heap);
        break;
    case START:
        arg[0] = root_that(heap, holds_nothing);
        break;
    default:
        arg[0] = any_root(heap), arg[1] = any_root(heap);
    }
}

/* Which of its numbers is the root that a call reads; the first one, where it reads none. */
static const size_t source_at[OPS] = { [COPY] = 1, [LOAD] = 1, [STORE] = 2 };

/* A finalizer may put its cell in another place, which then keeps it. It may write the running root as well: FINISH has to
   empty it, "whatever it holds by now". */
static void aim_at_running_root(struct wish *wish, const struct heap *heap)
{
    size_t at = chance(50) ? 0 : source_at[wish->op];
    if (heap->control.at[RUNNING] != 0)
        wish->arg[at] = heap->control.at[RUNNING] - 1;
}

struct wish knowing_wish(const struct heap *heap, enum mood mood)
{
    enum op op = some_op(mood);
    struct wish wish = { .op = chance(80) ? sensible(op, heap) : op };
    choose_arguments(&wish, heap);
    if (chance(30))
        aim_at_running_root(&wish, heap);
    if (chance(3))
        wish.arg[below(3)] = wild_number();
    return wish;
}

/* Refused, whatever else the call asks for, and nothing changes. */
static void call_with_misfit(struct pair *pair, const struct wish *wish)
{
    size_t len = misfitting_length(pair->ours.kind.len);
    struct answer answer = pair_call_with(pair, len, wish->op, wish->arg[0], wish->arg[1], wish->arg[2]);
    demand(answer.refused == SIZE, "a list that doesn't fit is refused");
}

/* Now and then the call is made with a list that doesn't fit before it is made with one that does. */
void knowing_call(struct pair *pair, enum mood mood)
{
    struct wish wish = knowing_wish(&pair->ours, mood);
    if (chance(4))
        call_with_misfit(pair, &wish);
    noted_call(pair, wish.op, wish.arg[0], wish.arg[1], wish.arg[2]);
}

static void fill_slots(struct pair *pair, size_t object_root, size_t from_root)
{
    for (size_t slot = 0; slot < SLOTS; slot++)
        noted_call(pair, STORE, object_root, slot, from_root);
}

/* What holds itself is left to COLLECT. */
static void clear_holder(struct pair *pair, size_t object_root)
{
    if (chance(50))
        noted_call(pair, STORE, object_root, any_slot(), object_root);
    noted_call(pair, CLEAR, object_root, 0, 0);
}

/* Single calls seldom leave a cell that a slot alone holds, and hardly ever an object whose slots are all full. The holder
   loses its root before other calls give it more references. */
void knowing_holder(struct pair *pair)
{
    const struct heap *heap = &pair->ours;
    enum kind kind = chance(50) ? OBJECT : STRING + below(2);
    size_t root = root_that(heap, holds_nothing), holder = root_that(heap, holds_object);
    size_t other = root_that(heap, holds_something);
    noted_call(pair, NEW, root, kind, kind == OBJECT && chance(20));
    if (kind == OBJECT)
        fill_slots(pair, root, other);
    noted_call(pair, STORE, holder, any_slot(), root);
    noted_call(pair, CLEAR, root, 0, 0);
    clear_holder(pair, holder);
}

/* Single calls seldom leave a cell in the running root that it alone holds. FINISH frees it, and then perhaps the one that was
   finalised. */
void knowing_finalizer(struct pair *pair)
{
    const struct heap *heap = &pair->ours;
    enum kind kind = chance(50) ? OBJECT : STRING + below(2);
    noted_call(pair, START, root_that(heap, holds_nothing), 0, 0);
    if (heap->control.at[RUNNING] == 0)
        return;
    size_t running = heap->control.at[RUNNING] - 1;
    noted_call(pair, CLEAR, running, 0, 0);
    noted_call(pair, NEW, running, kind, 0);
    if (kind == OBJECT)
        noted_call(pair, STORE, running, any_slot(), root_that(heap, holds_something));
    noted_call(pair, FINISH, 0, 0, 0);
}

static size_t blind_number(void)
{
    return chance(80) ? below(4) : wild_number();
}

void blind_call(struct pair *pair, enum op op)
{
    size_t n = pair->ours.kind.len, a = blind_number(), b = blind_number(), c = blind_number();
    pair_call_with(pair, chance(85) ? n : misfitting_length(n), op, a, b, c);
}

void fill_with_sound(struct pair *pair)
{
    make_sound(&pair->ours);
    pair_share(pair);
}

void fill_with_noise(struct pair *pair)
{
    for (int t = 0; t < TABLES; t++) {
        struct table *table = table_of(&pair->ours, t);
        for (size_t i = 0; i < table->len; i++)
            table->at[i] = below(65536);
    }
    pair_share(pair);
}
