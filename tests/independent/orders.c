/* Chains longer than marking is nested, whose cells come in strange orders: "a cell met at that depth is noted and served by a
   later scan", and the cells noted are in any word, before and after those that are scanned. A part of the cells is let go in a
   ring. */
#include "suites.h"

#include "fates.h"
#include "holding.h"
#include "parts.h"
#include "random.h"
#include "words.h"

/* Which root holds what: the first cell of all, the holder of the part that is let go, and the part's ends. */
enum { TOP, HOLDER, FIRST, LAST, NOTHING, FINALIZER_ROOT };

enum { RANDOM = 0, DOWN = CELLS_MAX }; /* in the place of a stride */

static const size_t strides[] = { 1, DOWN, WORD - 1, WORD, WORD + 1, RANDOM };

/* The first cell holds so many chains, whose next cells come in turn. */
static const size_t widths[] = { 1, 3, SLOTS };

/* Where the part begins, in eighths of all cells. */
static const size_t cuts[] = { 1, 4, 7 };

/* The cell that holds the part, in which slot, and the part's ends and how many cells it has. */
struct part {
    size_t holder, slot, first, last, count;
};

struct scene {
    uint16_t order[CELLS_MAX];
    size_t cells, width;
    struct part part;
};

/* Each cell is so much further than the one before it, round the end; where that one had its turn, the next that hadn't. */
static void in_strides(uint16_t *order, size_t cells, size_t stride)
{
    bool had_turn[CELLS_MAX] = { false };
    size_t cell = 0;
    for (size_t i = 0; i < cells; i++) {
        while (had_turn[cell])
            cell = (cell + 1) % cells;
        had_turn[cell] = true;
        order[i] = cell;
        cell = (cell + stride) % cells;
    }
}

static void put_in_order(struct scene *scene, size_t stride)
{
    if (stride == RANDOM)
        shuffle(scene->order, scene->cells);
    else
        in_strides(scene->order, scene->cells, stride == DOWN ? scene->cells - 1 : stride);
}

/* The place in the order of the cell that holds the i-th one, and the slot. */
static size_t holder_of(const struct scene *scene, size_t i)
{
    return i <= scene->width ? 0 : i - scene->width;
}

static size_t slot_for(size_t i)
{
    return (i - 1) % SLOTS;
}

/* The part is the rest of a chain: from the i-th cell on, and all that come after it in its own chain. */
static void choose_part(struct scene *scene, size_t i)
{
    size_t further = (scene->cells - 1 - i) / scene->width;
    scene->part = (struct part){
        .holder = scene->order[holder_of(scene, i)],
        .slot = slot_for(i),
        .first = scene->order[i],
        .last = scene->order[i + further * scene->width],
        .count = 1 + further,
    };
}

static void hold_in_root(struct heap *heap, size_t root, size_t cell)
{
    hold(heap, &heap->roots.at[root], cell);
}

static void make_chains(struct heap *heap, const struct scene *scene)
{
    const uint16_t *order = scene->order;
    for (size_t i = 0; i < scene->cells; i++)
        heap->kind.at[i] = OBJECT;
    for (size_t i = 1; i < scene->cells; i++)
        hold(heap, slot_of(heap, order[holder_of(scene, i)], slot_for(i)), order[i]);
    hold_in_root(heap, TOP, order[0]);
    hold_in_root(heap, HOLDER, scene->part.holder);
    hold_in_root(heap, FIRST, scene->part.first);
    hold_in_root(heap, LAST, scene->part.last);
}

/* The last cell of a chain holds nothing before. */
static void let_go(struct pair *pair, const struct part *part)
{
    pair_call(pair, STORE, LAST, SLOTS - 1, FIRST);
    pair_call(pair, STORE, HOLDER, part->slot, NOTHING);
    pair_call(pair, CLEAR, FIRST, 0, 0);
    demand(pair_call(pair, CLEAR, LAST, 0, 0).freed == 0, "a ring stays until COLLECT");
}

/* Its finalizer holds all of the part until it has run. */
static void finalize(struct pair *pair)
{
    collect_demanding(pair, 0, 1);
    pair_call(pair, START, FINALIZER_ROOT, 0, 0);
    collect_demanding(pair, 0, 0);
    pair_call(pair, FINISH, 0, 0, 0);
}

static void play(const struct scene *scene, bool finalizer)
{
    pair_sequence("long chains in strange orders");
    struct pair pair = pair_of(scene->cells);
    make_chains(&pair.ours, scene);
    pair.ours.flags.at[scene->part.last] = finalizer ? FINALIZER : 0;
    pair_share(&pair);
    collect_demanding(&pair, 0, 0);
    let_go(&pair, &scene->part);
    if (finalizer)
        finalize(&pair);
    collect_demanding(&pair, scene->part.count, 0);
    pair_free(&pair);
}

static void cut_each_way(struct scene *scene)
{
    for (size_t i = 0; i < sizeof cuts / sizeof *cuts; i++) {
        choose_part(scene, scene->cells * cuts[i] / 8);
        play(scene, false);
        play(scene, true);
    }
}

static void orders_of(size_t cells)
{
    for (size_t s = 0; s < sizeof strides / sizeof *strides; s++)
        for (size_t w = 0; w < sizeof widths / sizeof *widths; w++) {
            struct scene scene = { .cells = cells, .width = widths[w] };
            put_in_order(&scene, strides[s]);
            cut_each_way(&scene);
        }
}

/* A single cell has no order. */
void orders(void)
{
    for (size_t i = 0; i < WORD_SIZES; i++)
        if (word_sizes[i] > 1)
            orders_of(word_sizes[i]);
}
