/* Bytes lent to the heap under test, which AddressSanitizer doesn't see: guards around them tell what is written outside. */
#ifndef BYTES_H
#define BYTES_H

#include "lines.h"

#include <stdint.h>

struct bytes {
    uint8_t *room; /* with the guards */
    size_t len;    /* without them */
};

/* Guards and bytes are all `fill`. */
struct bytes bytes_filled(size_t len, uint8_t fill);

/* The guards are LF, which would end a line for who reads on after a CR. */
struct bytes bytes_of(struct text text);

void bytes_free(struct bytes *bytes);

/* What is lent; if it is empty, null in every second sequence. */
uint8_t *bytes_lent(const struct bytes *bytes);

void bytes_put(struct bytes *bytes, const void *from, size_t len);

/* Guards and bytes are the same. */
bool bytes_same(const struct bytes *a, const struct bytes *b);

#endif
