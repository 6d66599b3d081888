/* "Most of what the baskets throw away is strings". Objects are freed together with the strings and buffers they hold. */
#include "baskets.h"

#include "suites.h"

const size_t basket_sizes[BASKET_SIZES] = {
    1, 2, 3, 8, 9, 10, 17, 63, 64, 65, 127, 128, CELLS_MAX - 1, CELLS_MAX,
};

/* The kinds of what stands in even and in odd slots. */
struct contents {
    enum kind even, odd;
};

static const struct contents all_contents[] = { { STRING, STRING }, { BUFFER, BUFFER }, { STRING, BUFFER } };

/* Each eighth cell is an object. It holds the seven cells after it and, in its last slot, the object before it. */
static void make_cell(struct heap *heap, size_t cell)
{
    size_t nth = cell % SLOTS, object = cell - nth;
    heap->kind.at[cell] = nth == 0 ? OBJECT : nth % 2 == 0 ? STRING : BUFFER;
    heap->count.at[cell] = 1;
    if (nth != 0)
        heap->slots.at[SLOTS * object + nth - 1] = cell + 1;
    else if (cell != 0)
        heap->slots.at[SLOTS * object + SLOTS - 1] = cell - SLOTS + 1;
}

/* All cells are used, and one slot of each object is for an object, so that a ring can be made of them. COLLECT can free no
   more strings and buffers than stand in the others: 896 of 1,024. */
void make_baskets(struct heap *heap)
{
    size_t n = heap->kind.len, last_object = (n - 1) / SLOTS * SLOTS;
    for (size_t cell = 0; cell < n; cell++)
        make_cell(heap, cell);
    heap->roots.at[LAST] = last_object + 1;
    heap->roots.at[FIRST] = 0 + 1;
    heap->count.at[0]++;
}

void free_by_clear(struct pair *pair)
{
    pair_call(pair, CLEAR, FIRST, 0, 0);
    demand(pair_call(pair, CLEAR, LAST, 0, 0).freed == pair->ours.kind.len, "a CLEAR frees all cells");
}

void free_by_collect(struct pair *pair)
{
    pair_call(pair, STORE, FIRST, SLOTS - 1, LAST);
    pair_call(pair, CLEAR, FIRST, 0, 0);
    demand(pair_call(pair, CLEAR, LAST, 0, 0).freed == 0, "a ring stays until COLLECT");
    demand(pair_call(pair, COLLECT, 0, 0, 0).freed == pair->ours.kind.len, "COLLECT frees all cells");
}

static void all_freed(size_t cells, void (*free_all)(struct pair *))
{
    struct pair pair = pair_made("objects with strings and buffers", cells, make_baskets);
    free_all(&pair);
    pair_free(&pair);
}

/* A cell that the slot alone holds; where no cell is free, what slot 0 holds stands there too. */
static void put_in(struct pair *pair, size_t slot, enum kind kind)
{
    if (pair_call(pair, NEW, NO_BASKET, kind, 0).refused == FULL)
        pair_call(pair, LOAD, NO_BASKET, FIRST, 0);
    pair_call(pair, STORE, FIRST, slot, NO_BASKET);
    pair_call(pair, CLEAR, NO_BASKET, 0, 0);
}

static void one_freed(size_t cells, const struct contents *contents)
{
    pair_sequence("an object with eight strings or buffers");
    struct pair pair = pair_of(cells);
    size_t used = cells < 1 + SLOTS ? cells : 1 + SLOTS;
    pair_call(&pair, NEW, FIRST, OBJECT, 0);
    for (size_t slot = 0; slot < SLOTS; slot++)
        put_in(&pair, slot, slot % 2 == 0 ? contents->even : contents->odd);
    demand(pair_call(&pair, CLEAR, FIRST, 0, 0).freed == used, "the object is freed with all that it holds");
    pair_free(&pair);
}

static void each_contents(size_t cells)
{
    for (size_t i = 0; i < sizeof all_contents / sizeof *all_contents; i++)
        one_freed(cells, &all_contents[i]);
}

void baskets(void)
{
    for (size_t i = 0; i < BASKET_SIZES; i++) {
        each_contents(basket_sizes[i]);
        all_freed(basket_sizes[i], free_by_clear);
        all_freed(basket_sizes[i], free_by_collect);
    }
}
