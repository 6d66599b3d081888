#include "lent_lists.h"

#include "../../include/vekszalir.h"

#include <inttypes.h>
#include <stdio.h>
#include <string.h>

enum { WORDS = 400 };

/* Each entry is put in number by number: whoever takes one field for another is seen. */
static struct bytes lent_records(struct records records, uint8_t fill)
{
    struct bytes bytes = bytes_filled(records.len * sizeof(vek_record), fill);
    vek_record *at = (vek_record *)bytes_lent(&bytes);
    for (size_t i = 0; i < records.len; i++) {
        struct record record = records.at[i];
        at[i] = (vek_record){ .call = record.call, .first = record.first, .second = record.second, .third = record.third };
    }
    return bytes;
}

static struct bytes lent_answers(struct answers answers, uint8_t fill)
{
    struct bytes bytes = bytes_filled(answers.len * sizeof(vek_answer), fill);
    vek_answer *at = (vek_answer *)bytes_lent(&bytes);
    for (size_t i = 0; i < answers.len; i++) {
        struct answer answer = answers.at[i];
        at[i] = (vek_answer){ .refused = answer.refused, .freed = answer.freed, .queued = answer.queued, .cell = answer.cell };
    }
    return bytes;
}

static struct bytes lent_totals(const struct totals *totals, uint8_t fill)
{
    struct bytes bytes = bytes_filled(sizeof(vek_totals), fill);
    vek_totals *at = (vek_totals *)bytes_lent(&bytes);
    *at = (vek_totals){ .done = totals->done, .refused = totals->refused, .freed = totals->freed, .queued = totals->queued };
    return bytes;
}

struct lent_lists lent_lists_of(struct records records, struct answers answers, const struct totals *totals, uint8_t fill)
{
    return (struct lent_lists){ lent_records(records, fill), lent_answers(answers, fill), lent_totals(totals, fill) };
}

void lent_lists_free(struct lent_lists *lent)
{
    bytes_free(&lent->records);
    bytes_free(&lent->answers);
    bytes_free(&lent->totals);
}

static const char *answers_words(const struct lent_lists *lent, const struct lent_lists *owed)
{
    static char words[WORDS];
    const vek_record *records = (const vek_record *)bytes_lent(&owed->records);
    const vek_answer *ours = (const vek_answer *)bytes_lent(&owed->answers);
    const vek_answer *theirs = (const vek_answer *)bytes_lent(&lent->answers);
    size_t len = lent->answers.len / sizeof *theirs, i = 0;
    while (i < len && memcmp(&ours[i], &theirs[i], sizeof *ours) == 0)
        i++;
    if (i == len)
        return "the batch under test wrote outside the answers";
    vek_record record = i < lent->records.len / sizeof record ? records[i] : (vek_record){ 0 };
    snprintf(words, sizeof words,
             "first differing answer: %zu, to the record %u,%u,%u,%u, independent %u,%u,%u,%u, under test %u,%u,%u,%u", i,
             record.call, record.first, record.second, record.third, ours[i].refused, ours[i].freed, ours[i].queued,
             ours[i].cell, theirs[i].refused, theirs[i].freed, theirs[i].queued, theirs[i].cell);
    return words;
}

static const char *totals_words(const struct lent_lists *lent, const struct lent_lists *owed)
{
    static char words[WORDS];
    const vek_totals *ours = (const vek_totals *)bytes_lent(&owed->totals);
    const vek_totals *theirs = (const vek_totals *)bytes_lent(&lent->totals);
    snprintf(words, sizeof words,
             "the totals differ, or what is around them: independent %" PRIu64 ",%" PRIu64 ",%" PRIu64 ",%" PRIu64
             ", under test %" PRIu64 ",%" PRIu64 ",%" PRIu64 ",%" PRIu64,
             ours->done, ours->refused, ours->freed, ours->queued, theirs->done, theirs->refused, theirs->freed, theirs->queued);
    return words;
}

const char *lent_lists_difference(const struct lent_lists *lent, const struct lent_lists *owed)
{
    if (!bytes_same(&lent->records, &owed->records))
        return "the batch under test wrote to the records, or outside them";
    if (!bytes_same(&lent->answers, &owed->answers))
        return answers_words(lent, owed);
    return bytes_same(&lent->totals, &owed->totals) ? NULL : totals_words(lent, owed);
}
