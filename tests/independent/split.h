/* How an input is split into lines, and a line into fields that are numbers. */
#ifndef SPLIT_H
#define SPLIT_H

#include <stdbool.h>
#include <stddef.h>

struct text {
    const char *at;
    size_t len;
};

/* Where a separator begins first; the length of the text if it has none. */
size_t find(struct text text, const char *separator);

/* Takes what stands before the next separator off the rest, with the separator; without one, the whole rest. */
struct text cut(struct text *rest, const char *separator);

/* Takes the next line off the rest of an input, with its CR LF; false if nothing is left. */
bool next_line(struct text *rest, struct text *line);

/* Whether a field is a number, and which. */
bool number(struct text field, unsigned *value);

size_t commas(struct text line);

#endif
