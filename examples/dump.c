/* A box sends its heap for the audit: its seven tables as text, a line each. Build and run it with `make dump`;
   `make -s dump | make -s audit` audits what it sends. */
#include "vekszalir.h"

#include <stdio.h>

static VEK_STORAGE(4) shop;

/* A table's entries as decimal numbers, with commas between them; CR LF ends the line. */
static void write_table(FILE *to, const uint16_t *table, size_t len)
{
    for (size_t i = 0; i < len; i++)
        fprintf(to, i ? ",%u" : "%u", (unsigned)table[i]);
    fputs("\r\n", to);
}

/* The tables in the order in which every call takes them. */
static void write_heap(FILE *to, VEK_TABLES)
{
    write_table(to, kind, kind_len);
    write_table(to, flags, flags_len);
    write_table(to, count, count_len);
    write_table(to, slots, slots_len);
    write_table(to, roots, roots_len);
    write_table(to, queue, queue_len);
    write_table(to, control, control_len);
}

int main(void)
{
    vek_fresh(VEK_LEND(shop));
    vek_new(VEK_LEND_ALL(shop), 0, VEK_OBJECT, 0);
    vek_new(VEK_LEND_ALL(shop), 1, VEK_STRING, 0);
    vek_store(VEK_LEND_ALL(shop), 0, 3, 1);
    write_heap(stdout, VEK_LEND(shop));

    /* What an audit is for: a count too low, and a reference to a cell that is free. */
    shop.count[1] = 1;
    shop.roots[2] = 4;
    write_heap(stdout, VEK_LEND(shop));
    if (fflush(stdout) != 0) {
        perror("write");
        return 1;
    }
    return 0;
}
