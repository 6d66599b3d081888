/* Random heaps that lose some of their roots again and again, with refused calls and a COLLECT each time. */
#include "suites.h"

#include "made.h"
#include "misfits.h"
#include "noting.h"
#include "random.h"
#include "words.h"

enum { HEAPS = 10, ROUNDS = 5 };

/* None of them changes an entry, and the next COLLECT doesn't remember them. */
static void refused_calls(struct pair *pair)
{
    size_t cells = pair->ours.kind.len;
    struct answer misfit = pair_call_with(pair, misfitting_length(cells), COLLECT, 0, 0, 0);
    demand(misfit.refused == SIZE, "a list that doesn't fit is refused");
    demand(noted_call(pair, CLEAR, ROOTS + below(WORD), 0, 0).refused == NUMBER, "there is no such root");
    demand(noted_call(pair, LOAD, below(ROOTS), below(ROOTS), SLOTS).refused == NUMBER, "there is no such slot");
}

static void lose_some(struct pair *pair)
{
    for (size_t root = 0; root < ROOTS; root++)
        if (pair->ours.roots.at[root] != 0 && chance(40))
            noted_call(pair, CLEAR, root, 0, 0);
}

static void lose_roots_of(size_t cells, void (*make)(struct heap *))
{
    struct pair pair = pair_made("random heaps that lose their roots", cells, make);
    for (size_t round = 0; round < ROUNDS; round++) {
        lose_some(&pair);
        refused_calls(&pair);
        noted_call(&pair, COLLECT, 0, 0, 0);
    }
    pair_free(&pair);
}

void losing(void)
{
    for (size_t i = 0; i < WORD_SIZES; i++)
        for (size_t heap = 0; heap < HEAPS; heap++) {
            lose_roots_of(word_sizes[i], make_sound);
            lose_roots_of(word_sizes[i], make_loose);
            lose_roots_of(word_sizes[i], make_plain);
        }
}
