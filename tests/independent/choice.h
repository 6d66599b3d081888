/* Random calls. */
#ifndef CHOICE_H
#define CHOICE_H

#include "pair.h"

/* What a list of calls is mostly about. */
enum mood { FILLING, CUTTING, FINALIZING, MOODS };

struct wish {
    enum op op;
    size_t arg[3];
};

/* A call with arguments that suit what the sound heap holds, most of the time. */
struct wish knowing_wish(const struct heap *heap, enum mood mood);
void knowing_call(struct pair *pair, enum mood mood);

/* Calls that make a cell which a slot alone holds, and then CLEAR a root of its holder, most of the time. */
void knowing_holder(struct pair *pair);

/* Calls of a finalizer that puts a new cell in its running root, and its FINISH, most of the time. */
void knowing_finalizer(struct pair *pair);

/* A call on tables that may be damaged: arguments are in range or wild, the list fits or not, and nothing is followed. */
void blind_call(struct pair *pair, enum op op);

/* Sound tables that are drawn, where all entries were 0; and noise of full 16-bit numbers in every entry. */
void fill_with_sound(struct pair *pair);
void fill_with_noise(struct pair *pair);

#endif
