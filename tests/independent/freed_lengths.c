/* "each call except FRESH takes one more lent table of N entries, else SIZE". */
#include "suites.h"

#include "choice.h"
#include "misfits.h"
#include "random.h"

static const size_t cells[] = { 1, 2, 3, 8, 64, 1023, 1024 };

static void refused(struct pair *pair, size_t list_len)
{
    for (int op = NEW; op < OPS; op++) {
        struct answer answer = pair_call_with(pair, list_len, op, below(4), below(4), below(2));
        demand(answer.refused == SIZE, "a list that doesn't fit is refused");
    }
}

/* What the list's length does to a call it does on any tables that fit. FRESH looks at no list. */
static void list_off(size_t n, void (*fill)(struct pair *))
{
    size_t wrong[WRONG_LENGTHS];
    wrong_lengths(wrong, n);
    pair_sequence("lengths of the list of freed cells");
    struct pair pair = pair_of(n);
    fill(&pair);
    for (size_t i = 0; i < WRONG_LENGTHS; i++)
        refused(&pair, wrong[i]);
    demand(pair_call_with(&pair, wrong[0], FRESH, 0, 0, 0).refused == DONE, "FRESH takes no list");
    pair_free(&pair);
}

/* Where the kind table alone is off, the list fits the others. */
static void tables_off(const size_t len[TABLES])
{
    pair_sequence("a list, and tables that don't fit");
    struct pair pair = pair_make(len);
    refused(&pair, len[T_FLAGS]);
    pair_free(&pair);
}

void freed_lengths(void)
{
    for (size_t i = 0; i < sizeof cells / sizeof *cells; i++) {
        list_off(cells[i], fill_with_sound);
        list_off(cells[i], fill_with_noise);
    }
    each_misfit(tables_off);
}
