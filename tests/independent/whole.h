/* What vek_take and vek_end owe, told from the whole input: it is split into its lines before the first bit is handed in,
   so how it is cut can't matter. */
#ifndef WHOLE_H
#define WHOLE_H

#include "lines.h"

/* A line with the place where the next one begins. The last one may lack its CR LF, and is not closed then. */
struct line {
    struct text text;
    size_t end;
    bool closed;
};

struct whole {
    struct text input;
    struct line *lines;
    size_t count, answered; /* lines */
    size_t taken;           /* bytes */
};

/* `done` is whether nothing is held any more at the end of the input. */
struct owed {
    size_t taken, written;
    bool done;
};

struct whole whole_of(struct text input);
void whole_free(struct whole *whole);

/* The next `len` bytes are handed in. `out` has room for REPLY_MAX + 1 bytes more than `room`. */
struct owed whole_take(struct whole *whole, struct heap *heap, size_t len, size_t room, char *out);

/* The input, all of which has been taken, has ended. */
struct owed whole_end(struct whole *whole, struct heap *heap, size_t room, char *out);

#endif
