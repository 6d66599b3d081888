/* Ways to break a single clause of "A sound heap" while the others hold: whoever leaves out that clause takes the heap for
   a sound one. */
#ifndef BREAKING_H
#define BREAKING_H

#include "tables.h"

#include <stdbool.h>

/* Cells by what they are. ABOVE and LARGEST are references that name no cell. */
enum who { USED, FREED, TEXT, BYTES, PLAIN, WAITING, QUEUED, RUN_ONCE, SHARED, ABOVE, LARGEST };

/* Where a reference is put: always in an empty entry. */
enum place { IN_ROOT, IN_SLOT, IN_QUEUE, PAST_QUEUE };

/* How long the queue has to be. */
enum queue_state { QUEUE_NONE, QUEUE_SOME, QUEUE_ALL };

struct damage {
    const char *name;
    bool (*apply)(struct heap *, const struct damage *);
    enum who who;               /* the cell that is changed, or that the reference names */
    enum table_number table;    /* of the cell's entry */
    unsigned value;             /* what the entry becomes, or what is added to it */
    enum place place;
    enum who owner;             /* of the slot */
    unsigned raise;             /* what the named cell's count gains, so that rule 6 holds */
    enum queue_state queue;
};

extern const struct damage damages[];
extern const size_t damage_count;

#endif
