/* Calls on a sound heap, with the situations noted that they meet. */
#ifndef NOTING_H
#define NOTING_H

#include "pair.h"

struct answer noted_call(struct pair *pair, enum op op, size_t a, size_t b, size_t c);

#endif
