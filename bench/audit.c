/* The audit and its cell lines in C: the same refusals, the same row, the same bytes. */
#include "heap.h"

#include <string.h>

/* Can the rows of k heaps that fit add up to this one? The numbers are small by then. */
static int possible_for(int64_t k, const vek_row *r)
{
    int64_t below = (int64_t)r->below, above = (int64_t)r->above, lost = (int64_t)r->lost;
    int64_t cells = below + (int64_t)r->at + above, references = 64 * k + 9 * cells, missing = above - r->sum;
    return k <= cells && cells <= VEK_CELLS_MAX * k && lost + below <= references && r->sum + below <= UINT16_MAX * above &&
           missing <= references - lost && missing <= 9280 * below && missing <= 73 * below + 9 * (cells - k);
}

static int possible(const vek_report *report)
{
    const vek_row *r = &report->totals;
    const uint64_t most = (uint64_t)VEK_HEAPS_MAX * VEK_CELLS_MAX;
    const int64_t far = (int64_t)most * UINT16_MAX;
    return r->size <= report->heaps && r->below <= most && r->at <= most && r->above <= most && r->lost <= 10 * most &&
           -far <= r->sum && r->sum <= far && possible_for((int64_t)(report->heaps - r->size), r);
}

static uint16_t refusal(const vek_report *report)
{
    return report->heaps >= VEK_HEAPS_MAX ? VEK_MANY : possible(report) ? VEK_DONE : VEK_TOTAL;
}

static inline size_t tally_one(uint16_t *tally, size_t r, size_t n)
{
    if (r > n)
        return 1;
    tally[r]++;
    return 0;
}

/* Tallies a table; how many of its references are lost. Four at a time, since most are empty; entry 0 of the tally takes empty ones. */
static size_t tally_table(uint16_t *tally, const uint16_t *table, size_t len, size_t n)
{
    size_t lost = 0, i = 0;
    for (; i + 4 <= len; i += 4) {
        uint64_t word;
        memcpy(&word, table + i, sizeof word);
        if (word == 0)
            continue;
        for (size_t j = 0; j < 4; j++)
            lost += tally_one(tally, table[i + j], n);
    }
    for (; i < len; i++)
        lost += tally_one(tally, table[i], n);
    return lost;
}

/* Writes the differences, and adds up the row of the cells. */
static vek_row compare(int32_t *differences, const uint16_t *count, const uint16_t *counted, size_t n)
{
    uint32_t below = 0, above = 0;
    int64_t sum = 0;
    for (size_t c = 0; c < n; c++) {
        int32_t d = count[c] - counted[c];
        differences[c] = d;
        below += d < 0;
        above += d > 0;
        sum += d;
    }
    return (vek_row){below, n - below - above, above, sum, 0, 0};
}

static vek_row plus(vek_row a, vek_row b)
{
    return (vek_row){a.below + b.below, a.at + b.at, a.above + b.above, a.sum + b.sum, a.lost + b.lost, a.size + b.size};
}

static vek_audited taken(vek_report report, vek_row row, uint16_t refused)
{
    return (vek_audited){refused, row, {report.heaps + 1, plus(report.totals, row)}};
}

vek_audited c_audit(VEK_TABLES, int32_t *differences, size_t differences_len, vek_report report)
{
    uint16_t tally[VEK_CELLS_MAX + 1], why = refusal(&report);
    if (why != VEK_DONE)
        return (vek_audited){why, {0, 0, 0, 0, 0, 0}, report};
    if (!c_fits(kind, kind_len, flags, flags_len, count, count_len, slots, slots_len, roots, roots_len, queue, queue_len, control, control_len) ||
        differences_len != kind_len)
        return taken(report, (vek_row){0, 0, 0, 0, 0, 1}, VEK_SIZE);
    memset(tally, 0, sizeof tally[0] * (kind_len + 1));
    size_t lost = tally_table(tally, roots, roots_len, kind_len) + tally_table(tally, slots, slots_len, kind_len) +
                  tally_table(tally, queue, queue_len, kind_len);
    vek_row row = compare(differences, count, tally + 1, kind_len);
    row.lost = lost;
    return taken(report, row, VEK_DONE);
}

/* ---- lines */

static uint8_t *put_number(uint8_t *out, uint32_t n)
{
    size_t digits = n < 10 ? 1 : n < 100 ? 2 : n < 1000 ? 3 : n < 10000 ? 4 : 5;
    for (size_t i = digits; i > 0; i--, n /= 10)
        out[i - 1] = (uint8_t)('0' + n % 10);
    return out + digits;
}

static uint8_t *put_field(uint8_t *out, uint32_t n)
{
    out = put_number(out, n);
    *out = ',';
    return out + 1;
}

static uint8_t *put_six(uint8_t *out, const char *six)
{
    memcpy(out, six, 6);
    return out + 6;
}

uint8_t *c_cell_line(uint8_t *out, uint32_t heap, uint32_t cell, int32_t difference)
{
    out = put_field(put_field(out, heap), cell);
    out = put_six(out, difference < 0 ? "1,0,0," : difference == 0 ? "0,1,0," : "0,0,1,");
    if (difference < 0)
        *out++ = '-';
    return put_six(put_number(out, (uint32_t)(difference < 0 ? -difference : difference)), ",0,0\r\n");
}
