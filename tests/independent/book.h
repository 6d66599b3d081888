/* The marked examples as data. */
#ifndef BOOK_H
#define BOOK_H

#include "pair.h"

/* A step that isn't a call: table, entry and the value that stands there now. */
enum { FACT = OPS };

enum { BOOK_STEPS = 17 };

/* A call, the numbers it gets and the answer wanted. A list ends with a step that is all zeros. */
struct book_step {
    unsigned op;
    size_t arg[3];
    struct answer want;
};

/* From a fresh heap each time. */
struct book_example {
    const char *name;
    size_t cells;
    struct book_step steps[BOOK_STEPS];
};

extern const struct book_example book_examples[];
extern const size_t book_count;

bool book_fact(struct pair *pair, const struct book_step *fact);

#endif
