/* Rings through all words of a heap, with one object in each, and with strings and buffers beside it, in this word or the next. */
#include "suites.h"

#include "fates.h"
#include "holding.h"
#include "parts.h"
#include "steps.h"
#include "words.h"

enum { CHILDREN = 3, FINALIZER_ROOT = FATE_ROOT + 1 };

/* The bit of the ring's object in each word. */
static const size_t places[] = { 0, 1, WORD / 2 - 1, WORD - 2, WORD - 1 };

/* Which objects of the ring have finalizers. */
enum finalizers { OF_NONE, OF_FIRST, OF_LAST, OF_ALL, WHOSE };

struct ring {
    size_t cells, place;
    bool down;
    enum finalizers whose;
    enum fate rest;
};

static bool in_ring(const struct ring *ring, size_t cell)
{
    return cell % WORD == ring->place;
}

static size_t last_of(const struct ring *ring)
{
    return (ring->cells - 1 - ring->place) / WORD * WORD + ring->place;
}

/* The object after this one in cell order, round the end. */
static size_t next_of(const struct ring *ring, size_t cell)
{
    return cell == last_of(ring) ? ring->place : cell + WORD;
}

static bool has_finalizer(const struct ring *ring, size_t cell)
{
    return ring->whose == OF_ALL
        || (ring->whose == OF_FIRST && cell == ring->place)
        || (ring->whose == OF_LAST && cell == last_of(ring));
}

/* Round the end of the heap, so that the last object's are cells of the first word. */
static size_t child_of(const struct ring *ring, size_t cell, size_t nth)
{
    return (cell + 1 + nth) % ring->cells;
}

/* The cell is free before. It may be a ring's object or another one's child, where the last word is short. */
static void add_child(struct heap *heap, const struct ring *ring, size_t holder, size_t nth)
{
    size_t child = child_of(ring, holder, nth);
    if (in_ring(ring, child) || heap->kind.at[child] != FREE)
        return;
    heap->kind.at[child] = nth % 2 == 0 ? STRING : BUFFER;
    hold(heap, slot_of(heap, holder, nth), child);
}

static void add_object(struct heap *heap, const struct ring *ring, size_t cell)
{
    size_t next = next_of(ring, cell);
    heap->kind.at[cell] = OBJECT;
    heap->flags.at[cell] = has_finalizer(ring, cell) ? FINALIZER : 0;
    if (ring->down)
        hold(heap, slot_of(heap, next, SLOTS - 1), cell);
    else
        hold(heap, slot_of(heap, cell, SLOTS - 1), next);
    for (size_t nth = 0; nth < CHILDREN; nth++)
        add_child(heap, ring, cell, nth);
}

static void add_ring(struct heap *heap, const struct ring *ring)
{
    for (size_t cell = ring->place; cell < ring->cells; cell += WORD)
        add_object(heap, ring, cell);
}

/* The ring's cells and the children's are left free. */
static void leave_room(enum fate *fates, const struct ring *ring)
{
    for (size_t cell = 0; cell < ring->cells; cell++)
        fates[cell] = ring->rest;
    for (size_t cell = ring->place; cell < ring->cells; cell += WORD) {
        fates[cell] = UNUSED;
        for (size_t nth = 0; nth < CHILDREN; nth++)
            fates[child_of(ring, cell, nth)] = UNUSED;
    }
}

/* "Sweeping children of a queued cell" is one of the slips: what the ring holds stays until the finalizers have run. Those that
   wait are found once, however often COLLECT comes. */
static void finalize(struct pair *pair, size_t freed, size_t queued)
{
    collect_demanding(pair, freed, queued);
    collect_demanding(pair, 0, 0);
    pair_call(pair, START, FINALIZER_ROOT, 0, 0);
    collect_demanding(pair, 0, 0);
    pair_call(pair, FINISH, 0, 0, 0);
    drain(pair);
}

static size_t queued_of(const struct ring *ring)
{
    return ring->whose == OF_ALL ? 1 + (last_of(ring) - ring->place) / WORD : 1;
}

static size_t used(const struct heap *heap)
{
    size_t count = 0;
    for (size_t cell = 0; cell < heap->kind.len; cell++)
        count += heap->kind.at[cell] != FREE;
    return count;
}

static void play_ring(const struct ring *ring)
{
    enum fate fates[CELLS_MAX];
    leave_room(fates, ring);
    struct pair pair = pair_of_fates("rings through all words", ring->cells, fates);
    size_t others = used(&pair.ours), loose = with_fate(fates, ring->cells, LOOSE);
    add_ring(&pair.ours, ring);
    pair_share(&pair);
    size_t whole = used(&pair.ours) - others;
    if (ring->whose != OF_NONE) {
        finalize(&pair, loose, queued_of(ring));
        loose = 0;
    }
    collect_demanding(&pair, whole + loose, 0);
    pair_free(&pair);
}

static void rings_at(size_t cells, size_t place)
{
    static const enum fate rests[] = { UNUSED, KEPT, LOOSE };
    for (enum finalizers whose = OF_NONE; whose < WHOSE; whose++)
        for (size_t r = 0; r < sizeof rests / sizeof *rests; r++) {
            play_ring(&(struct ring){ cells, place, false, whose, rests[r] });
            play_ring(&(struct ring){ cells, place, true, whose, rests[r] });
        }
}

void rings(void)
{
    for (size_t i = 0; i < WORD_SIZES; i++)
        for (size_t p = 0; p < sizeof places / sizeof *places; p++)
            if (places[p] < word_sizes[i])
                rings_at(word_sizes[i], places[p]);
}
