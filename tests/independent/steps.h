/* Lists of calls that are written down as data. */
#ifndef STEPS_H
#define STEPS_H

#include "pair.h"

/* Steps that aren't calls: run the finalizers that wait; and the end of a list. */
enum { DRAIN = OPS, END };

struct step {
    unsigned op;
    size_t arg[3];
};

void play(struct pair *pair, const struct step *steps);

/* Finalizers run one after the other in a root that must be empty; a queue of a thousand isn't run to its end. */
void drain(struct pair *pair);

#endif
