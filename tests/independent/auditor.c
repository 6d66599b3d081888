/* The program of Q-4 over the independent audit: heaps from standard input, seven lines each, and the report of them all. It
   reads standard input whole before it answers: how the input comes in pieces can't matter then. */
#include "audit.h"
#include "input.h"
#include "tables.h"

#include <inttypes.h>
#include <stdio.h>
#include <stdlib.h>

enum { NUMBER_LEN = 32 };

/* What is no table, or isn't there, has a length that fits no N. */
static struct table no_table(void)
{
    return (struct table){ NULL, SIZE_MAX };
}

/* An empty line is an empty table; any other has one entry more than commas. */
static struct table table_on(struct text line)
{
    struct table table = { NULL, line.len == 0 ? 0 : commas(line) + 1 };
    table.at = malloc(table.len * sizeof *table.at);
    for (size_t i = 0; i < table.len; i++) {
        unsigned value;
        if (!number(cut(&line, ","), &value)) {
            free(table.at);
            return no_table();
        }
        table.at[i] = value;
    }
    return table;
}

static struct table next_table(struct text *rest)
{
    struct text line;
    return next_line(rest, &line) ? table_on(line) : no_table();
}

/* False if nothing is left of the input. A heap may lack its last lines. */
static bool next_heap(struct text *rest, struct heap *heap)
{
    size_t before = rest->len;
    for (int t = 0; t < TABLES; t++)
        *table_of(heap, t) = next_table(rest);
    return rest->len < before;
}

/* "Output is CSV after RFC 4180 with CR LF" */
static void print_row(const char *heap, const char *cell, struct row row)
{
    printf("%s,%s,%" PRIu64 ",%" PRIu64 ",%" PRIu64 ",%" PRId64 ",%" PRIu64 ",%" PRIu64 "\r\n", heap, cell, row.below, row.at,
           row.above, row.sum, row.lost, row.size);
}

/* "after a heap's cells comes its own line, cell empty, and for a SIZE heap this only" */
static void print_heap(const struct audited *audited, const int32_t *differences, size_t cells)
{
    char heap[NUMBER_LEN], cell[NUMBER_LEN];
    sprintf(heap, "%" PRIu64, audited->report.heaps);
    for (size_t i = 0; audited->refused == DONE && i < cells; i++) {
        sprintf(cell, "%zu", i);
        print_row(heap, cell, cell_row(differences[i]));
    }
    print_row(heap, "", audited->heap);
}

static struct audited audit_next(const struct heap *heap, struct report report)
{
    int32_t differences[CELLS_MAX];
    struct audited audited = audit(heap, differences, heap->kind.len, report);
    if (audited.refused != MANY)
        print_heap(&audited, differences, heap->kind.len);
    return audited;
}

/* A heap that is refused MANY "has no line"; the first such one is told of on standard error. */
static struct report audit_all(struct text rest)
{
    struct report report = { 0 };
    struct heap heap;
    bool many = false;
    while (next_heap(&rest, &heap)) {
        struct audited audited = audit_next(&heap, report);
        if (audited.refused == MANY && !many)
            fprintf(stderr, "heap %d is refused MANY\n", HEAPS_MAX + 1);
        many = audited.refused == MANY;
        report = audited.report;
        exact_heap_free(&heap);
    }
    return report;
}

/* "header heap,cell,below,at,above,sum,lost,size [..] last the totals, heap empty too" */
int main(void)
{
    struct text input = read_all(stdin);
    printf("heap,cell,below,at,above,sum,lost,size\r\n");
    print_row("", "", audit_all(input).totals);
    free((char *)input.at);
    return fflush(stdout) == 0 ? 0 : 1;
}
