/* Heaps that are filled up to a border of a word, or a cell less or more, and whose last cells are let go. */
#include "suites.h"

#include "fates.h"
#include "words.h"

enum { NEWEST = FATE_ROOT + 1, MOST_LOOSE = 2 };

/* How many cells of how many are used, and how many of these, the last ones, are let go. */
struct filling {
    size_t cells, used, loose;
    bool finalizer;
};

/* An object that holds itself, and that nothing else holds. */
static void let_go(struct pair *pair, size_t cell, bool finalizer)
{
    demand(pair_call(pair, NEW, NEWEST, OBJECT, finalizer).cell == cell, "the lowest free cell becomes an object");
    pair_call(pair, STORE, NEWEST, cell % SLOTS, NEWEST);
    demand(pair_call(pair, CLEAR, NEWEST, 0, 0).freed == 0, "a ring stays until COLLECT");
}

/* The next cell is the first of those that COLLECT freed or, where they wait for finalizers, the one behind them. */
static void use_next(struct pair *pair, const struct filling *filling)
{
    size_t next = filling->finalizer ? filling->used : filling->used - filling->loose;
    struct answer answer = pair_call(pair, NEW, NEWEST, STRING, 0);
    if (next == filling->cells)
        demand(answer.refused == FULL, "no cell is free");
    else
        demand(answer.refused == DONE && answer.cell == next, "the lowest free cell becomes a string");
}

static void fill_up(const struct filling *filling)
{
    size_t kept = filling->used - filling->loose;
    enum fate fates[CELLS_MAX];
    for (size_t cell = 0; cell < filling->cells; cell++)
        fates[cell] = cell < kept ? KEPT : UNUSED;
    struct pair pair = pair_of_fates("heaps filled up to the border of a word", filling->cells, fates);
    for (size_t cell = kept; cell < filling->used; cell++)
        let_go(&pair, cell, filling->finalizer);
    collect_demanding(&pair, filling->finalizer ? 0 : filling->loose, filling->finalizer ? filling->loose : 0);
    use_next(&pair, filling);
    pair_call(&pair, COLLECT, 0, 0, 0);
    pair_free(&pair);
}

static void fillings_of(size_t cells, size_t used)
{
    for (size_t loose = 1; loose <= MOST_LOOSE && loose <= used; loose++) {
        fill_up(&(struct filling){ cells, used, loose, false });
        fill_up(&(struct filling){ cells, used, loose, true });
    }
}

/* The number of used cells, like the last of them, is around a border. */
static bool ends_at_border(size_t used, size_t cells)
{
    return used == cells || at_border(used, cells) || used % WORD == 1;
}

void filled(void)
{
    for (size_t i = 0; i < WORD_SIZES; i++)
        for (size_t used = 1; used <= word_sizes[i]; used++)
            if (ends_at_border(used, word_sizes[i]))
                fillings_of(word_sizes[i], used);
}
