/* The batch of Q-7 in document 02, written from it alone. */
#ifndef BATCH_H
#define BATCH_H

#include "heap.h"

/* Lists "over 4,096 long, are SIZE" */
enum { RECORDS_MAX = 4096 };

/* "A record is four 16-bit numbers as in the program's lines" */
struct record {
    uint16_t call, first, second, third;
};

struct totals {
    uint64_t done, refused, freed, queued;
};

struct records {
    const struct record *at;
    size_t len;
};

struct answers {
    struct answer *at;
    size_t len;
};

/* Makes the calls of a list, writes their answers and raises the totals. Any lengths, entries, records and totals are answered.
   Refused, it writes nothing. */
struct answer batch(struct heap *heap, struct records records, struct answers answers, struct totals *totals);

/* Does what one record asks for, on a heap whose lengths fit. */
struct answer answer_record(struct heap *heap, struct record record);

/* Raises the totals by what a record is answered. */
void add_answer(struct totals *totals, struct answer answer);

#endif
