#include "misfits.h"

#include "random.h"

#include <string.h>

static const size_t cells[] = { 1, 2, 3, 5, 8, 64, 1023, 1024 };
static const size_t bad_cells[] = { 0, 1025, 1026, 2048, 8192, 65536, 65537 };

void wrong_lengths(size_t wrong[WRONG_LENGTHS], size_t fitting)
{
    const size_t all[WRONG_LENGTHS] = { fitting + 1, 2 * fitting, fitting + 65536, CELLS_MAX + 1, fitting - 1, fitting / 2, 0 };
    memcpy(wrong, all, sizeof all);
}

size_t misfitting_length(size_t fitting)
{
    const size_t near[] = { fitting + 1, fitting - (fitting > 0), 0, below(2 * fitting + 2) };
    size_t len = near[below(sizeof near / sizeof *near)];
    return len == fitting ? fitting + 1 : len;
}

static void one_off(size_t n, enum table_number t, with_lengths *with)
{
    size_t len[TABLES], wrong[WRONG_LENGTHS];
    fitting_lengths(len, n);
    wrong_lengths(wrong, len[t]);
    for (size_t i = 0; i < WRONG_LENGTHS; i++) {
        len[t] = wrong[i];
        with(len);
    }
}

static void each_off(size_t n, with_lengths *with)
{
    for (int t = TABLES - 1; t >= 0; t--)
        one_off(n, t, with);
}

static void all_empty(with_lengths *with)
{
    const size_t len[TABLES] = { 0 };
    with(len);
}

static void too_few_or_many(size_t n, with_lengths *with)
{
    size_t len[TABLES];
    fitting_lengths(len, n);
    with(len);
}

void each_misfit(with_lengths *with)
{
    for (size_t i = 0; i < sizeof bad_cells / sizeof *bad_cells; i++)
        too_few_or_many(bad_cells[i], with);
    all_empty(with);
    for (size_t i = 0; i < sizeof cells / sizeof *cells; i++)
        each_off(cells[i], with);
}
