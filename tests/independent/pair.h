/* Two heaps with equal tables: the independent one and the one under test. Every call goes to both, and the first
   difference ends the program with a report. So does a count that the independent heap meets at zero. */
#ifndef PAIR_H
#define PAIR_H

#include "freed_list.h"
#include "tables.h"

#include <stdbool.h>

struct pair {
    struct heap ours, theirs;
    uint16_t *guarded[TABLES]; /* the room of `theirs`, with guard entries around each table */
    struct freed_list freed;   /* as the last call has left it */
};

/* Named in the report of a difference. */
void pair_seed(unsigned long long seed);
void pair_sequence(const char *part);

/* Begins the next call of the sequence, and says its number. */
unsigned long pair_step(void);

/* Begins the report of a difference with the place that the comparison has reached. */
void pair_tell_place(void);

/* Goes on with it: what somebody answers. */
void pair_tell_answer(const char *who, struct answer answer);

/* Whether what is empty is lent as a null pointer: in every second sequence. */
bool pair_lends_null(void);

struct pair pair_make(const size_t len[TABLES]);
struct pair pair_of(size_t n);
void pair_free(struct pair *pair);

/* Hands the tables of `ours`, as somebody has written them, to `theirs` too. */
void pair_share(struct pair *pair);

/* A pair of n cells on tables that are made directly; they have to be sound. */
struct pair pair_made(const char *part, size_t n, void (*make)(struct heap *));

/* What differs between the tables, or what is written outside them, in words; null if nothing. */
const char *pair_difference(struct pair *pair);

/* Whether all numbers are the same. */
bool same_answer(struct answer a, struct answer b);

/* Ends the program, with a report, if what both heaps did isn't what the documents say. */
void demand(bool holds, const char *what);

/* With a table for the freed cells that fits N, and with one of any length. */
struct answer pair_call(struct pair *pair, enum op op, size_t a, size_t b, size_t c);
struct answer pair_call_with(struct pair *pair, size_t list_len, enum op op, size_t a, size_t b, size_t c);

#endif
