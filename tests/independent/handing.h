/* Ways to hand over an input in bits. */
#ifndef HANDING_H
#define HANDING_H

#include "feed.h"

/* The largest room that is drawn. */
enum { ROOM_MAX = 100 };

struct manner {
    const size_t *cuts; /* where the bits end, in rising order; the last one ends with the input */
    size_t count;
    bool glue;          /* what is not taken waits for the next bit; else it is handed in alone until it is */
    bool mixed;         /* every call has another room for its answers; else they all have */
    size_t room;        /* but a call for which it is too small is followed by one for which it isn't */
};

/* Hands over a whole input, ends it, and ends it again. */
void hand_over(struct pair *pair, struct text input, const struct manner *manner);

/* The same, cut at so many random places. */
void hand_over_cut(struct pair *pair, struct text input, size_t count, struct manner manner);

/* Everything else at random. */
struct manner random_manner(void);

#endif
