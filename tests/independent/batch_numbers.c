/* Records with numbers up to the largest in every place, those that are unused and the call's own among them. */
#include "suites.h"

#include "batching.h"
#include "random.h"

#include <stdlib.h>

static const size_t cells[] = { 1, 2, 3, 4, 9 };

/* From 9 on, and with 0, these name no call. */
static const uint16_t calls[] = { 0, 1, 2, 3, 4, 5, 6, 7, 8, 9, 10, 255, 256, 257, 32769, 65535 };
static const uint16_t arguments[] = { 0, 1, 2, 3, 7, 8, 63, 64, 65535 };

enum { CALLS = sizeof calls / sizeof *calls, ARGUMENTS = sizeof arguments / sizeof *arguments };
enum { ALL = CALLS * ARGUMENTS * ARGUMENTS * ARGUMENTS, ALONE = 300 };

static struct record record_of(size_t i)
{
    return (struct record){ calls[i % CALLS], arguments[i / CALLS % ARGUMENTS], arguments[i / CALLS / ARGUMENTS % ARGUMENTS],
                            arguments[i / CALLS / ARGUMENTS / ARGUMENTS] };
}

/* In random order: the heap changes with the records that are done, and each call meets heaps of many sorts. */
static struct record *all_records(void)
{
    static uint16_t order[ALL];
    struct record *records = malloc(ALL * sizeof *records);
    shuffle(order, ALL);
    for (size_t i = 0; i < ALL; i++)
        records[i] = record_of(order[i]);
    return records;
}

/* As few batches as there can be, after batches of a single record. */
static void every_record(size_t n)
{
    struct totals totals = { 0 };
    pair_sequence("numbers in records");
    struct pair pair = pair_of(n);
    struct record *records = all_records();
    for (size_t i = 0; i < ALONE; i++)
        pair_batch_fitting(&pair, (struct records){ records + i, 1 }, &totals);
    for (size_t i = 0; i < ALL; i += RECORDS_MAX)
        pair_batch_fitting(&pair, (struct records){ records + i, ALL - i < RECORDS_MAX ? ALL - i : RECORDS_MAX }, &totals);
    demand(totals.done + totals.refused == ALONE + ALL, "each record is done or refused");
    free(records);
    pair_free(&pair);
}

void batch_numbers(void)
{
    for (size_t i = 0; i < sizeof cells / sizeof *cells; i++)
        every_record(cells[i]);
}
