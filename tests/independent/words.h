/* "put the marks of a sweep in 64-bit words, one bit per cell". Heaps that end in, at and behind a word, and the cells at the
   borders of words. */
#ifndef WORDS_H
#define WORDS_H

#include <stdbool.h>
#include <stddef.h>

enum { WORD = 64, WORD_SIZES = 8 };

extern const size_t word_sizes[WORD_SIZES];

/* Whether a cell is the first or the last one of a word or of the heap. */
bool at_border(size_t cell, size_t cells);

/* Whether a cell is looked at alone: each one of a small heap is, and those around the borders of a large one. */
bool looked_at(size_t cell, size_t cells);

#endif
