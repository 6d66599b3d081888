/* "Lists of unequal length, or over 4,096 long, are SIZE"; and tables that don't fit. */
#include "suites.h"

#include "batching.h"
#include "choice.h"
#include "misfits.h"
#include "records.h"

static const size_t fitting[] = { 0, 1, 2, 3, 64, 255, 256, RECORDS_MAX - 1, RECORDS_MAX };

/* Some of them fit when they are cut to 16 bits. */
static const size_t too_long[] = { RECORDS_MAX + 1, RECORDS_MAX + 2, 2 * RECORDS_MAX, 65535, 65536, 65537, 65536 + RECORDS_MAX };
static const size_t longer_by[] = { 1, 2, 64, RECORDS_MAX, 65536 };

enum { FITTING = sizeof fitting / sizeof *fitting, TOO_LONG = sizeof too_long / sizeof *too_long };
enum { LONGER = sizeof longer_by / sizeof *longer_by };

/* What is refused for its lengths, or damaged, is refused so with totals at their end too. */
static void lend(struct pair *pair, size_t records_len, size_t answers_len, enum refusal wanted)
{
    struct totals totals = { 4, 3, 2, 1 }, at_end = { UINT64_MAX, UINT64_MAX - 1, UINT64_MAX - 2, UINT64_MAX - 3 };
    struct records records = blind_records(records_len);
    demand(pair_batch_with(pair, records, answers_len, &totals).refused == wanted, "the lengths decide");
    if (wanted != DONE)
        demand(pair_batch_with(pair, records, answers_len, &at_end).refused == wanted, "the lengths decide, whatever the totals");
    records_free(&records);
}

static void unequal(struct pair *pair, size_t len)
{
    for (size_t i = 0; i < LONGER; i++) {
        lend(pair, len, len + longer_by[i], SIZE);
        lend(pair, len + longer_by[i], len, SIZE);
    }
    if (len > 0) {
        lend(pair, len, 0, SIZE);
        lend(pair, 0, len, SIZE);
    }
}

/* Lists that fit are refused only for what the tables are. */
static void all_lengths(size_t n, void (*fill)(struct pair *), enum refusal otherwise)
{
    pair_sequence("lengths of lists");
    struct pair pair = pair_of(n);
    fill(&pair);
    for (size_t i = 0; i < FITTING; i++) {
        unequal(&pair, fitting[i]);
        lend(&pair, fitting[i], fitting[i], otherwise);
    }
    for (size_t i = 0; i < TOO_LONG; i++)
        lend(&pair, too_long[i], too_long[i], SIZE);
    pair_free(&pair);
}

/* What the lists are doesn't matter then. */
static void tables_off(const size_t len[TABLES])
{
    pair_sequence("a batch on tables that don't fit");
    struct pair pair = pair_make(len);
    for (int noisy = 0; noisy < 2; noisy++) {
        lend(&pair, 0, 0, SIZE);
        lend(&pair, 3, 3, SIZE);
        lend(&pair, 1, 2, SIZE);
        fill_with_noise(&pair);
    }
    pair_free(&pair);
}

void batch_lengths(void)
{
    all_lengths(1, fill_with_sound, DONE);
    all_lengths(2, fill_with_sound, DONE);
    all_lengths(3, fill_with_noise, DAMAGED);
    all_lengths(4, fill_with_sound, DONE);
    each_misfit(tables_off);
}
