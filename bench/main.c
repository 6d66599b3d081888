/* Runs one case of the benchmark on one of the two heaps, and prints the number of calls, what the last one answered, its list,
   and the answers to the records; callgrind counts what happens inside `measured` and its like. */
#include "heap.h"

#include <stdio.h>
#include <stdlib.h>
#include <string.h>

#ifndef N
#define N 1024
#endif

static VEK_STORAGE(N) heap;

static int32_t differences[N];

/* The records of a batch, and their answers. */
enum { RECORDS = 3000 };

static vek_record records[RECORDS];
static vek_answer answers[RECORDS];

static int proved;

/* A call of either heap. */
static vek_answer call(int op, size_t a, size_t b, size_t c)
{
    if (!proved) {
        switch (op) {
        case 1: return c_new(VEK_LEND_ALL(heap), a, b, c);
        case 2: return c_clear(VEK_LEND_ALL(heap), a);
        case 3: return c_copy(VEK_LEND_ALL(heap), a, b);
        case 4: return c_load(VEK_LEND_ALL(heap), a, b, c);
        case 5: return c_store(VEK_LEND_ALL(heap), a, b, c);
        case 6: return c_collect(VEK_LEND_ALL(heap));
        case 7: return c_start(VEK_LEND_ALL(heap), a);
        case 8: return c_finish(VEK_LEND_ALL(heap));
        default: return c_fresh(VEK_LEND(heap));
        }
    }
    switch (op) {
    case 1: return vek_new(VEK_LEND_ALL(heap), a, b, c);
    case 2: return vek_clear(VEK_LEND_ALL(heap), a);
    case 3: return vek_copy(VEK_LEND_ALL(heap), a, b);
    case 4: return vek_load(VEK_LEND_ALL(heap), a, b, c);
    case 5: return vek_store(VEK_LEND_ALL(heap), a, b, c);
    case 6: return vek_collect(VEK_LEND_ALL(heap));
    case 7: return vek_start(VEK_LEND_ALL(heap), a);
    case 8: return vek_finish(VEK_LEND_ALL(heap));
    default: return vek_fresh(VEK_LEND(heap));
    }
}

__attribute__((noinline)) vek_answer measured(int op, size_t a, size_t b, size_t c) { return call(op, a, b, c); }

/* All records as one batch; the answer has the totals, its cell the calls that were done. */
__attribute__((noinline)) vek_answer measured_batch(void)
{
    vek_totals t = {0, 0, 0, 0};
    vek_answer a = proved ? vek_batch(VEK_LEND(heap), VEK_LEND_TABLE(records), VEK_LEND_TABLE(answers), &t)
                          : c_batch(VEK_LEND(heap), VEK_LEND_TABLE(records), VEK_LEND_TABLE(answers), &t);
    return (vek_answer){a.refused, (uint16_t)t.freed, (uint16_t)t.queued, (uint16_t)t.done};
}

/* The audit of either heap; the answer is a digest of its row. */
__attribute__((noinline)) vek_answer measured_audit(void)
{
    vek_report report = VEK_REPORT_START;
    vek_audited a = proved ? vek_audit(VEK_LEND(heap), VEK_LEND_TABLE(differences), report)
                           : c_audit(VEK_LEND(heap), VEK_LEND_TABLE(differences), report);
    return (vek_answer){a.refused, (uint16_t)a.heap.below, (uint16_t)a.heap.above, (uint16_t)a.heap.sum};
}

/* All cell lines by the C version; the answer's number of cells is that of the lines. */
__attribute__((noinline)) vek_answer measured_lines(void)
{
    static uint8_t lines[64 * N];
    uint8_t *end = lines;
    for (uint32_t c = 0; c < N; c++)
        end = c_cell_line(end, 1, c, differences[c]);
    return (vek_answer){end == lines, N, 0, 0};
}

/* ---- heaps, written entry by entry */

static void hold(uint16_t *place, unsigned cell)
{
    *place = cell + 1;
    heap.count[cell]++;
}

/* The first n cells as baskets: an object with three strings, and the next basket in slot 0; root 0 holds the first. */
static void baskets(size_t n)
{
    for (size_t c = 0; c < n; c++)
        heap.kind[c] = c % 4 ? 2 : 1;
    for (size_t c = 0; c < n; c++)
        if (c % 4)
            hold(heap.slots + 8 * (c - c % 4) + c % 4, c);
        else
            hold(c ? heap.slots + 8 * (c - 4) : heap.roots, c);
}

/* A chain of all cells in slot 0, from cell 0 up or from the last cell down; root 0 holds its first. */
static void chain(int up)
{
    for (size_t i = 0; i < N; i++) {
        size_t c = up ? i : N - 1 - i;
        heap.kind[c] = 1;
        hold(i ? heap.slots + 8 * (up ? c - 1 : c + 1) : heap.roots, c);
    }
}

/* Every slot of every object is used; slot 0 makes the chain. */
static void full_slots(void)
{
    chain(1);
    for (size_t c = 0; c < N; c++)
        for (size_t j = c + 1 < N ? 1 : 0; j < 8; j++)
            hold(heap.slots + 8 * c + j, (c * 7 + j * 131) % N);
}

static void queued(void)
{
    for (size_t c = 0; c < N; c++) {
        heap.kind[c] = 1;
        heap.flags[c] = 1;
        hold(heap.queue + c, c);
    }
    heap.control[0] = N;
}

/* Half of the slots lead to cells at random; every cell is in the chain as well, in an order at random. */
static void graph(void)
{
    uint32_t x = 12345;
    chain(1);
    for (size_t c = 0; c < N; c++)
        for (size_t j = 1; j < 5; j++) {
            x = x * 1664525u + 1013904223u;
            hold(heap.slots + 8 * c + j, (x >> 8) % N);
        }
}

/* An object that holds a string in each of its slots from `slot` on; the strings are the cells behind it. */
static void strings(size_t first, size_t slot)
{
    heap.kind[first] = 1;
    for (size_t c = first + 1, j = slot; j < 8; c++, j++) {
        heap.kind[c] = 2;
        hold(heap.slots + 8 * first + j, c);
    }
}

/* An object with eight strings, in root 0. */
static void eight_strings(void)
{
    strings(0, 0);
    hold(heap.roots, 0);
}

/* As many strings as COLLECT can free: a ring of objects that no root holds, with seven strings each. */
static void ring_of_strings(void)
{
    for (size_t c = 0; c < N; c += 8) {
        strings(c, 1);
        hold(heap.slots + 8 * c, (c + 8) % N);
    }
}

/* Cell 0 waits for its finalizer. */
static void queue_cell_0(void)
{
    heap.flags[0] = 1;
    hold(heap.queue, 0);
    heap.control[0] = 1;
}

/* A random graph in which two counts of three are off: one too high, one too low. */
static void wrong_counts(void)
{
    graph();
    for (size_t c = 0; c < N; c++)
        heap.count[c] = (uint16_t)(c % 3 == 0 ? heap.count[c] : c % 3 == 1 ? heap.count[c] + c : heap.count[c] / 2);
}

/* A line of a dump: a table's entries. */
static void write_table(const uint16_t *table, size_t len)
{
    for (size_t i = 0; i < len; i++)
        printf(i ? ",%u" : "%u", table[i]);
    printf("\r\n");
}

static void write_tables(void)
{
    write_table(VEK_LEND_TABLE(heap.kind)), write_table(VEK_LEND_TABLE(heap.flags)), write_table(VEK_LEND_TABLE(heap.count));
    write_table(VEK_LEND_TABLE(heap.slots)), write_table(VEK_LEND_TABLE(heap.roots)), write_table(VEK_LEND_TABLE(heap.queue));
    write_table(VEK_LEND_TABLE(heap.control));
}

/* A table as one number, in which the order of its entries counts. */
static unsigned digest(const uint16_t *table, size_t len)
{
    unsigned all = 0;
    for (size_t i = 0; i < len; i++)
        all = all * 31 + table[i];
    return all;
}

/* The answers to the records as one number. */
static unsigned answered(void)
{
    unsigned all = 0;
    for (size_t i = 0; i < RECORDS; i++) {
        uint16_t entries[] = {answers[i].refused, answers[i].freed, answers[i].queued, answers[i].cell};
        all = all * 31 + digest(VEK_LEND_TABLE(entries));
    }
    return all;
}

/* What becomes of a call of the morning: it is made, written as a line for the program, or kept as a record. */
typedef void action(int op, size_t a, size_t b, size_t c);

static void make(int op, size_t a, size_t b, size_t c) { measured(op, a, b, c); }

static void write_line(int op, size_t a, size_t b, size_t c) { printf("%d,%zu,%zu,%zu\r\n", op, a, b, c); }

static size_t kept;

/* The next record, if there is room for one. */
static void keep(int op, size_t a, size_t b, size_t c)
{
    if (kept < RECORDS)
        records[kept++] = (vek_record){(uint16_t)op, (uint16_t)a, (uint16_t)b, (uint16_t)c};
}

/* A basket is made, filled, read, and thrown away; the number of calls. */
static unsigned basket(action *one)
{
    one(1, 0, 1, 0);
    for (unsigned line = 0; line < 8; line++)
        one(1, 1, 2, 0), one(5, 0, line, 1), one(2, 1, 0, 0);
    for (unsigned line = 0; line < 8; line++)
        one(4, 2, 0, line), one(3, 3, 2, 0);
    one(2, 2, 0, 0), one(2, 3, 0, 0), one(2, 0, 0, 0);
    return 1 + 8 * 3 + 8 * 2 + 3;
}

/* A shop's morning. */
static unsigned morning(action *one)
{
    unsigned calls = 0;
    for (unsigned round = 0; round < 20; round++)
        calls += basket(one);
    return calls;
}

/* Mornings, one after another, until there is no room for more; the number of records. */
static unsigned fill_records(void)
{
    while (kept < RECORDS)
        morning(keep);
    return (unsigned)kept;
}

/* The records as calls, one by one; the last answer. */
static vek_answer make_records(void)
{
    for (size_t i = 0; i < kept; i++)
        answers[i] = measured(records[i].call, records[i].first, records[i].second, records[i].third);
    return answers[kept - 1];
}

int main(int argc, char **argv)
{
    if (argc != 3)
        return 2;
    const char *name = argv[2];
    proved = strcmp(argv[1], "proved") == 0;
    unsigned calls = 1;
    vek_answer a = {0, 0, 0, 0};
    if (!strcmp(name, "free")) {
        a = measured(2, 63, 0, 0);
    } else if (!strcmp(name, "half")) {
        baskets(N / 2), a = measured(2, 63, 0, 0);
    } else if (!strcmp(name, "full")) {
        baskets(N), a = measured(2, 63, 0, 0);
    } else if (!strcmp(name, "slots")) {
        full_slots(), a = measured(2, 63, 0, 0);
    } else if (!strcmp(name, "queued")) {
        queued(), a = measured(2, 63, 0, 0);
    } else if (!strcmp(name, "collect-up")) {
        chain(1), a = measured(6, 0, 0, 0);
    } else if (!strcmp(name, "collect-down")) {
        chain(0), a = measured(6, 0, 0, 0);
    } else if (!strcmp(name, "collect-graph")) {
        graph(), a = measured(6, 0, 0, 0);
    } else if (!strcmp(name, "collect-waiting")) {
        graph(), queue_cell_0(), a = measured(6, 0, 0, 0);
    } else if (!strcmp(name, "clear-chain")) {
        chain(1), a = measured(2, 0, 0, 0);
    } else if (!strcmp(name, "clear-strings")) {
        eight_strings(), a = measured(2, 0, 0, 0);
    } else if (!strcmp(name, "collect-strings")) {
        ring_of_strings(), a = measured(6, 0, 0, 0);
    } else if (!strcmp(name, "audit")) {
        wrong_counts(), a = measured_audit();
    } else if (!strcmp(name, "cell-lines")) {
        wrong_counts(), c_audit(VEK_LEND(heap), VEK_LEND_TABLE(differences), (vek_report)VEK_REPORT_START), a = measured_lines();
    } else if (!strcmp(name, "dump")) {
        wrong_counts(), write_tables();
        return 0;
    } else if (!strcmp(name, "basket")) {
        calls = morning(make);
    } else if (!strcmp(name, "batch")) {
        calls = fill_records(), a = measured_batch();
    } else if (!strcmp(name, "singly")) {
        calls = fill_records(), a = make_records();
    } else if (!strcmp(name, "lines")) {
        morning(write_line);
        return 0;
    } else {
        return 2;
    }
    if (a.refused) {
        fprintf(stderr, "%s: refused %u\n", name, a.refused);
        return 1;
    }
    printf("%u %u %u %u %u %u\n", calls, a.freed, a.queued, a.cell, digest(VEK_LEND_TABLE(heap.freed)), answered());
    return 0;
}
