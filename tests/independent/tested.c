#include "tested.h"

#define LENT                                                                                                  \
    heap->kind.at, heap->kind.len, heap->flags.at, heap->flags.len, heap->count.at, heap->count.len,          \
        heap->slots.at, heap->slots.len, heap->roots.at, heap->roots.len, heap->queue.at, heap->queue.len,    \
        heap->control.at, heap->control.len

#define LENT_ALL LENT, freed.at, freed.len

/* FRESH alone takes no table for the freed cells. */
static vek_answer pass_on(struct heap *heap, struct table freed, enum op op, size_t a, size_t b, size_t c)
{
    switch (op) {
    case NEW:
        return vek_new(LENT_ALL, a, b, c);
    case CLEAR:
        return vek_clear(LENT_ALL, a);
    case COPY:
        return vek_copy(LENT_ALL, a, b);
    case LOAD:
        return vek_load(LENT_ALL, a, b, c);
    case STORE:
        return vek_store(LENT_ALL, a, b, c);
    case COLLECT:
        return vek_collect(LENT_ALL);
    case START:
        return vek_start(LENT_ALL, a);
    case FINISH:
        return vek_finish(LENT_ALL);
    default:
        return vek_fresh(LENT);
    }
}

static struct answer answer_from(vek_answer answer)
{
    return (struct answer){ answer.refused, answer.freed, answer.queued, answer.cell };
}

struct answer tested_call(struct heap *heap, struct table freed, enum op op, size_t a, size_t b, size_t c)
{
    return answer_from(pass_on(heap, freed, op, a, b, c));
}

struct answer tested_batch(struct heap *heap, const struct lent_lists *lists)
{
    const vek_record *records = (const vek_record *)bytes_lent(&lists->records);
    vek_answer *answers = (vek_answer *)bytes_lent(&lists->answers);
    vek_totals *totals = (vek_totals *)bytes_lent(&lists->totals);
    size_t records_len = lists->records.len / sizeof *records, answers_len = lists->answers.len / sizeof *answers;
    return answer_from(vek_batch(LENT, records, records_len, answers, answers_len, totals));
}

vek_progress tested_take(struct heap *heap, vek_reader reader, const struct bytes *in, const struct bytes *out)
{
    return vek_take(LENT, reader, bytes_lent(in), in->len, bytes_lent(out), out->len);
}

vek_progress tested_end(struct heap *heap, vek_reader reader, const struct bytes *out)
{
    return vek_end(LENT, reader, bytes_lent(out), out->len);
}

static vek_row row_to(struct row row)
{
    return (vek_row){ row.below, row.at, row.above, row.sum, row.lost, row.size };
}

static struct row row_from(vek_row row)
{
    return (struct row){ row.below, row.at, row.above, row.sum, row.lost, row.size };
}

struct audited tested_audit(struct heap *heap, int32_t *differences, size_t len, struct report report)
{
    vek_report before = { report.heaps, row_to(report.totals) };
    vek_audited audited = vek_audit(LENT, differences, len, before);
    struct report after = { audited.report.heaps, row_from(audited.report.totals) };
    return (struct audited){ audited.refused, row_from(audited.heap), after };
}
