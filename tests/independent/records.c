#include "records.h"

#include "lines.h"
#include "random.h"
#include "tables.h"

#include <stdlib.h>

/* No call has these numbers, but some do when they are cut to fewer bits, or looked at with a sign. */
static const uint16_t no_calls[] = { 0, 9, 10, 16, 255, 256, 257, 264, 1025, 32767, 32768, 32769, 65528, 65534, 65535 };

/* Of these a byte is 0, or the sign is set, or all bits are. */
static const uint16_t above_zero[] = { 1, 2, 63, 64, 255, 256, 32768, 65280, 65535 };

uint16_t *number_at(struct record *record, size_t place)
{
    uint16_t *const numbers[PLACES] = { &record->call, &record->first, &record->second, &record->third };
    return numbers[place];
}

static uint16_t wild_16_bits(void)
{
    return wild_number() % 65536;
}

/* A number of a place that the call doesn't use is above 0, or the call has another number. Now and then one of those that are
   used is wild besides: it is LINE all the same. */
static void spoil(struct record *record)
{
    unsigned used = arguments_of(record->call);
    if (chance(15) && used > 0)
        *number_at(record, 1 + below(used)) = wild_16_bits();
    if (used == 3 || chance(40))
        record->call = no_calls[below(sizeof no_calls / sizeof *no_calls)];
    else
        *number_at(record, 1 + used + below(3 - used)) = above_zero[below(sizeof above_zero / sizeof *above_zero)];
}

/* The places that the call doesn't use hold 0 before it is spoilt. Of a wild number the lowest 16 bits are left. */
static struct record some_record(const struct heap *heap, enum mood mood, unsigned spoilt)
{
    struct wish wish = knowing_wish(heap, mood);
    struct record record = { .call = wish.op };
    for (size_t i = 0; i < arguments_of(wish.op); i++)
        *number_at(&record, 1 + i) = wish.arg[i];
    if (chance(spoilt))
        spoil(&record);
    return record;
}

/* Each record is answered here as well, so that the next one suits what the heap holds then. */
struct records random_records(struct heap *heap, size_t len, enum mood mood, unsigned spoilt)
{
    struct heap copy = exact_copy(heap);
    struct record *at = malloc(len * sizeof *at);
    for (size_t i = 0; i < len; i++) {
        at[i] = some_record(&copy, chance(90) ? mood : below(MOODS), spoilt);
        answer_record(&copy, at[i]);
    }
    exact_heap_free(&copy);
    return (struct records){ at, len };
}

struct records blind_records(size_t len)
{
    struct record *at = malloc(len * sizeof *at);
    for (size_t i = 0; i < len; i++) {
        at[i] = (struct record){ NEW + below(FINISH), below(4), below(4), below(2) };
        if (chance(20))
            *number_at(&at[i], below(PLACES)) = wild_16_bits();
    }
    return (struct records){ at, len };
}

void records_free(struct records *records)
{
    free((struct record *)records->at);
}
