/* "N is not 1 to 1,024, or the tables' lengths don't fit N": refused whatever the tables and the numbers are. */
#include "suites.h"

#include "choice.h"
#include "misfits.h"

static void refused_all(const size_t len[TABLES])
{
    pair_sequence("lengths");
    struct pair pair = pair_make(len);
    for (int noisy = 0; noisy < 2; noisy++) {
        for (int op = FRESH; op < OPS; op++)
            blind_call(&pair, op);
        demand(pair_call(&pair, START, SIZE_MAX, 0, 0).refused == SIZE, "lengths that don't fit are refused");
        fill_with_noise(&pair);
    }
    pair_free(&pair);
}

void lengths(void)
{
    each_misfit(refused_all);
}
