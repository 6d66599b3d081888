/* Numbers that look random and repeat with the seed. */
#ifndef RANDOM_H
#define RANDOM_H

#include <stdbool.h>
#include <stddef.h>
#include <stdint.h>

void random_seed(uint64_t seed);
size_t below(size_t limit);
bool chance(unsigned percent);

/* The numbers below n in random order. */
void shuffle(uint16_t *order, size_t n);

/* Numbers on the edges of the ranges that document 01 names, and far above them. */
extern const size_t wild_numbers[];
extern const size_t wild_count;
size_t wild_number(void);

#endif
