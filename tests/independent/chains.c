/* Chains and rings of every length, up and down in cell order, made by calls alone. */
#include "suites.h"

#include "steps.h"

/* Which root is for what. */
enum { HEAD, TAIL, FRESHLY, HOLDER, SPARE, NOTHING };

struct chain {
    size_t cells, length;
    bool down;             /* each object holds the one made before it, else the one made after it */
    unsigned every;        /* each so many-th object has a finalizer; 0 for none */
    unsigned slot;
};

static const struct chain shapes[] = {
    { 20, 15, false, 0, 0 },     { 20, 16, true, 0, 1 },      { 20, 17, false, 0, 2 },     { 20, 18, true, 0, 3 },
    { 64, 33, false, 5, 4 },     { 64, 34, true, 1, 5 },      { 40, 40, true, 7, 6 },      { 256, 255, false, 0, 7 },
    { 256, 256, true, 40, 0 },   { 300, 258, false, 0, 1 },   { 300, 260, true, 0, 2 },    { 300, 260, true, 1, 3 },
    { 1024, 600, false, 64, 4 }, { 1024, 1023, true, 0, 5 },  { 1024, 1024, false, 0, 6 }, { 1024, 1022, true, 1, 7 },
};

/* What is done with a chain whose first and last object are in roots. */
static const struct step held[] = {
    { CLEAR, { TAIL } }, { COLLECT, { 0 } }, { CLEAR, { HEAD } }, { DRAIN, { 0 } }, { COLLECT, { 0 } }, { END, { 0 } },
};
static const struct step ring[] = {
    { STORE, { TAIL, 7, HEAD } }, { CLEAR, { TAIL } }, { COLLECT, { 0 } }, { CLEAR, { HEAD } }, { COLLECT, { 0 } },
    { DRAIN, { 0 } }, { COLLECT, { 0 } }, { DRAIN, { 0 } }, { COLLECT, { 0 } }, { END, { 0 } },
};
static const struct step text_at_end[] = {
    { NEW, { SPARE, STRING, 0 } }, { STORE, { TAIL, 0, SPARE } }, { CLEAR, { SPARE } },
    { NEW, { SPARE, BUFFER, 0 } }, { STORE, { TAIL, 1, SPARE } }, { CLEAR, { SPARE } },
    { CLEAR, { TAIL } }, { COLLECT, { 0 } }, { COPY, { HEAD, NOTHING } }, { DRAIN, { 0 } }, { END, { 0 } },
};
static const struct step held_by_queue[] = {
    { NEW, { HOLDER, OBJECT, 1 } }, { STORE, { HOLDER, 2, HEAD } }, { CLEAR, { HEAD } }, { CLEAR, { TAIL } },
    { CLEAR, { HOLDER } }, { COLLECT, { 0 } }, { START, { SPARE } }, { COLLECT, { 0 } }, { FINISH, { 0 } },
    { DRAIN, { 0 } }, { COLLECT, { 0 } }, { END, { 0 } },
};
static const struct step loose_finalizer[] = {
    { NEW, { HOLDER, OBJECT, 1 } }, { STORE, { HOLDER, 2, HEAD } }, { STORE, { HOLDER, 3, HOLDER } },
    { CLEAR, { HEAD } }, { CLEAR, { TAIL } }, { CLEAR, { HOLDER } }, { COLLECT, { 0 } }, { START, { SPARE } },
    { LOAD, { HEAD, SPARE, 2 } }, { FINISH, { 0 } }, { COLLECT, { 0 } }, { CLEAR, { HEAD } }, { DRAIN, { 0 } }, { END, { 0 } },
};
static const struct step cut_by_load[] = {
    { CLEAR, { TAIL } }, { NEW, { HOLDER, OBJECT, 0 } }, { LOAD, { HEAD, HOLDER, 0 } }, { DRAIN, { 0 } },
    { COLLECT, { 0 } }, { END, { 0 } },
};
static const struct step cut_by_store[] = {
    { CLEAR, { TAIL } }, { NEW, { HOLDER, OBJECT, 0 } }, { STORE, { HOLDER, 4, HEAD } }, { CLEAR, { HEAD } },
    { STORE, { HOLDER, 4, NOTHING } }, { DRAIN, { 0 } }, { COLLECT, { 0 } }, { END, { 0 } },
};

static const struct step *const endings[] = {
    held, ring, text_at_end, held_by_queue, loose_finalizer, cut_by_load, cut_by_store,
};

static void add_link(struct pair *pair, const struct chain *chain, size_t i)
{
    bool finalizer = chain->every != 0 && i % chain->every == 0;
    pair_call(pair, NEW, FRESHLY, OBJECT, finalizer);
    if (i == 0)
        pair_call(pair, COPY, chain->down ? TAIL : HEAD, FRESHLY, 0);
    else if (chain->down)
        pair_call(pair, STORE, FRESHLY, chain->slot, HEAD);
    else
        pair_call(pair, STORE, TAIL, chain->slot, FRESHLY);
    pair_call(pair, COPY, chain->down ? HEAD : TAIL, FRESHLY, 0);
    pair_call(pair, CLEAR, FRESHLY, 0, 0);
}

static void chain_scene(const struct chain *chain)
{
    pair_sequence("chains");
    struct pair pair = pair_of(chain->cells), made = pair_of(chain->cells);
    for (size_t i = 0; i < chain->length; i++)
        add_link(&made, chain, i);
    for (size_t e = 0; e < sizeof endings / sizeof *endings; e++) {
        pair_sequence("ends of chains");
        copy_tables(&pair.ours, &made.ours);
        pair_share(&pair);
        play(&pair, endings[e]);
    }
    pair_free(&made);
    pair_free(&pair);
}

void chains(void)
{
    for (size_t i = 0; i < sizeof shapes / sizeof *shapes; i++)
        chain_scene(&shapes[i]);
}
