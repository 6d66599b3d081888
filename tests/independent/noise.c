/* Random tables: sound ones, the same with an entry changed, and mere noise. */
#include "suites.h"

#include "choice.h"
#include "coverage.h"
#include "made.h"
#include "noting.h"
#include "random.h"

enum { CALLS = 12 }; /* after a first COLLECT, or at once */

static void change_an_entry(struct heap *heap)
{
    struct table *table = table_of(heap, below(TABLES));
    table->at[below(table->len)] = chance(80) ? below(5) : below(65536);
}

static void sound_tables(size_t cells, void (*make)(struct heap *))
{
    struct pair pair = pair_made("sound tables", cells, make);
    enum mood mood = below(MOODS);
    if (chance(50))
        noted_call(&pair, COLLECT, 0, 0, 0);
    for (size_t i = 0; i < CALLS; i++)
        knowing_call(&pair, mood);
    pair_free(&pair);
}

/* The other calls come after the verdict, since the tables may be sound. */
static void judge(struct pair *pair)
{
    struct answer verdict = pair_call(pair, START, ROOTS, 0, 0);
    coverage_landmark(verdict.refused == DAMAGED ? NOISE_DAMAGED : NOISE_SOUND);
    for (int i = 0; i < 4; i++)
        blind_call(pair, NEW + below(FINISH));
}

static void changed_tables(size_t cells)
{
    pair_sequence("sound tables with an entry changed");
    struct pair pair = pair_of(cells);
    make_sound(&pair.ours);
    change_an_entry(&pair.ours);
    pair_share(&pair);
    judge(&pair);
    pair_free(&pair);
}

/* Small numbers, sparsely, are sound now and then for a cell or two. */
static void small_noise(size_t cells)
{
    pair_sequence("small numbers");
    struct pair pair = pair_of(cells);
    for (int i = below(6); i > 0; i--)
        change_an_entry(&pair.ours);
    pair_share(&pair);
    judge(&pair);
    pair_free(&pair);
}

static void mere_noise(size_t cells)
{
    pair_sequence("noise");
    struct pair pair = pair_of(cells);
    fill_with_noise(&pair);
    for (int op = NEW; op < OPS; op++)
        blind_call(&pair, op);
    blind_call(&pair, FRESH);
    blind_call(&pair, NEW);
    pair_free(&pair);
}

static const struct {
    size_t cells, heaps;
} plan[] = { { 1, 120 }, { 2, 250 }, { 3, 300 }, { 4, 300 }, { 6, 300 }, { 20, 100 }, { 256, 40 }, { 1024, 30 } };

void noise(void)
{
    for (size_t p = 0; p < sizeof plan / sizeof *plan; p++)
        for (size_t i = 0; i < plan[p].heaps; i++) {
            sound_tables(plan[p].cells, make_sound);
            if (i % 2 == 0)
                sound_tables(plan[p].cells, make_loose);
            changed_tables(plan[p].cells);
            small_noise(1 + i % 3);
            if (i % 10 == 0)
                mere_noise(plan[p].cells);
        }
}
