/* An input that is handed in bits to the heap under test. After every call all that it says and writes is compared with what
   it owes, and the first difference ends the program with a report. */
#ifndef FEED_H
#define FEED_H

#include "pair.h"
#include "tested.h"
#include "whole.h"

struct feed {
    struct pair *pair;
    struct whole whole;
    vek_reader reader;
};

/* The reader of a new input holds nothing. */
struct feed feed_of(struct pair *pair, struct text input);
void feed_free(struct feed *feed);

/* Hands in the next `len` bytes that have not been taken, with so much room for answers. */
void feed_take(struct feed *feed, size_t len, size_t room);

/* Ends the input; false if there is a line to answer and no room for it. */
bool feed_end(struct feed *feed, size_t room);

bool reader_is_empty(vek_reader reader);

#endif
