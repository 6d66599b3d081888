#include "steps.h"

enum { ROUNDS = 30, FINALIZER_ROOT = 60 };

void drain(struct pair *pair)
{
    for (int i = 0; i < ROUNDS && pair->ours.control.at[LENGTH] != 0; i++) {
        pair_call(pair, START, FINALIZER_ROOT, 0, 0);
        pair_call(pair, FINISH, 0, 0, 0);
    }
}

void play(struct pair *pair, const struct step *steps)
{
    for (; steps->op != END; steps++) {
        const size_t *arg = steps->arg;
        if (steps->op == DRAIN)
            drain(pair);
        else
            pair_call(pair, steps->op, arg[0], arg[1], arg[2]);
    }
}
