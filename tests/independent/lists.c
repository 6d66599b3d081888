#include "suites.h"

#include "choice.h"
#include "random.h"

/* How many lists of how many steps, by the number of cells. Few cells fill soon, many need long lists. A step is a call or,
   in so many of a hundred, several that free a cell with its holder, or with one that was finalised: one or two cells leave
   little room for it, and with many cells it takes long. */
struct plan {
    size_t cells, lists, steps;
    unsigned several;
};

static const struct plan plans[] = {
    { 1, 300, 30, 1 }, { 2, 400, 40, 4 }, { 3, 400, 40, 12 }, { 4, 400, 40, 12 }, { 5, 400, 40, 12 },
    { 6, 400, 40, 12 }, { 16, 60, 120, 12 }, { 63, 6, 300, 8 }, { 64, 6, 300, 8 }, { 65, 6, 300, 8 }, { 127, 4, 400, 6 },
    { 128, 4, 400, 6 }, { 256, 6, 600, 4 }, { 1023, 2, 600, 2 }, { 1024, 4, 600, 2 },
};

/* "Demand 3's list starts from a FRESH done on tables of any N, whatever stood there." */
static void list(const struct plan *plan)
{
    pair_sequence("lists");
    struct pair pair = pair_of(plan->cells);
    enum mood mood = FILLING;
    fill_with_noise(&pair);
    pair_call(&pair, FRESH, 0, 0, 0);
    for (size_t i = 0; i < plan->steps; i++) {
        if (chance(6))
            mood = below(MOODS);
        if (chance(plan->several))
            knowing_holder(&pair);
        else if (chance(plan->several))
            knowing_finalizer(&pair);
        else
            knowing_call(&pair, mood);
    }
    pair_free(&pair);
}

void lists(void)
{
    for (size_t p = 0; p < sizeof plans / sizeof *plans; p++)
        for (size_t i = 0; i < plans[p].lists; i++)
            list(&plans[p]);
}
