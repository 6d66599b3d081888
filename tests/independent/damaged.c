#include "damaged.h"

#include "breaking.h"
#include "choice.h"
#include "random.h"

/* The heaps to be broken: small ones, and two large ones at last. */
enum { SMALL = 70, STOCK = SMALL + 2, APPLIED_MIN = 3 };

static void by_calls(struct pair *pair)
{
    enum mood mood = below(MOODS);
    for (int i = 0; i < 60; i++)
        knowing_call(pair, mood);
}

static void all_queued(struct pair *pair)
{
    for (size_t i = 0; i < pair->ours.kind.len; i++) {
        pair_call(pair, NEW, 0, OBJECT, 1);
        pair_call(pair, CLEAR, 0, 0, 0);
    }
}

/* Calls leave few cells that are finalised or that wait in a long queue. */
static void (*const origins[])(struct pair *) = { by_calls, fill_with_sound, by_calls, fill_with_sound, all_queued };

static struct pair good_heap(size_t cells, void (*make)(struct pair *))
{
    pair_sequence("heaps to be damaged");
    struct pair pair = pair_of(cells);
    make(&pair);
    demand(pair_call(&pair, START, ROOTS, 0, 0).refused == NUMBER, "a heap to be damaged is sound");
    return pair;
}

static void fill_stock(struct pair stock[STOCK])
{
    for (size_t i = 0; i < SMALL; i++)
        stock[i] = good_heap(1 + i % 6, origins[i % (sizeof origins / sizeof *origins)]);
    stock[SMALL] = good_heap(256, fill_with_sound);
    stock[SMALL + 1] = good_heap(CELLS_MAX, fill_with_sound);
}

/* Whether the damage could be done to a heap like this one. */
static bool damage_one(struct pair *good, const struct damage *damage, with_damaged *with)
{
    struct pair pair = pair_of(good->ours.kind.len);
    copy_tables(&pair.ours, &good->ours);
    bool applied = damage->apply(&pair.ours, damage);
    pair_share(&pair);
    if (applied)
        with(&pair);
    pair_free(&pair);
    return applied;
}

static void damage_each(struct pair stock[STOCK], const struct damage *damage, with_damaged *with)
{
    int applied = 0;
    pair_sequence(damage->name);
    for (size_t i = 0; i < STOCK; i++)
        applied += damage_one(&stock[i], damage, with);
    demand(applied >= APPLIED_MIN, "the damage is done to a few heaps");
}

void each_damaged(with_damaged *with)
{
    static struct pair stock[STOCK];
    fill_stock(stock);
    for (size_t d = 0; d < damage_count; d++)
        damage_each(stock, &damages[d], with);
    for (size_t i = 0; i < STOCK; i++)
        pair_free(&stock[i]);
}
