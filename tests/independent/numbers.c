#include "suites.h"

#include "choice.h"
#include "random.h"

enum { BASES = 12 };

static void every_number(struct pair *pair, enum op op, size_t place)
{
    for (size_t i = 0; i < wild_count; i++) {
        size_t arg[3] = { below(4), below(4), below(2) };
        arg[place] = wild_numbers[i];
        pair_call(pair, op, arg[0], arg[1], arg[2]);
    }
}

/* The heap changes as the calls with numbers in range are done; that is no harm. */
static void every_place(size_t cells)
{
    pair_sequence("numbers");
    struct pair pair = pair_of(cells);
    for (int i = 0; i < 12; i++)
        knowing_call(&pair, FILLING);
    for (int op = NEW; op < OPS; op++)
        for (size_t place = 0; place < 3; place++)
            every_number(&pair, op, place);
    pair_free(&pair);
}

void numbers(void)
{
    for (size_t base = 0; base < BASES; base++)
        every_place(base + 1);
}
