/* Random lists of records. Their room is malloc's, and theirs who ask for them. */
#ifndef RECORDS_H
#define RECORDS_H

#include "batch.h"
#include "choice.h"

/* Most of them suit a sound heap as those before leave it. So many of a hundred are spoilt, and are LINE mostly. */
struct records random_records(struct heap *heap, size_t len, enum mood mood, unsigned spoilt);

/* Numbers in range or wild, for a batch that is refused: nothing is followed. */
struct records blind_records(size_t len);

void records_free(struct records *records);

/* A record's number by its place; the first is the call's. */
enum { PLACES = 4 };
uint16_t *number_at(struct record *record, size_t place);

#endif
