/* Document 01: "Run by program as well: a chain of 1,024 objects, one root, one CLEAR that frees 1,024."
   The chain is made by calls alone. It is freed from its head on, as the list of freed cells says; then the tables must be as a
   fresh heap's. */
#include "../include/vekszalir.h"

#include <stdio.h>

enum { N = 1024 };

static VEK_STORAGE(N) heap;

static int failed;

static void expect(const char *what, unsigned i, vek_answer a, unsigned refused, unsigned freed, unsigned queued, unsigned cell)
{
    if (a.refused == refused && a.freed == freed && a.queued == queued && a.cell == cell)
        return;
    if (!failed)
        printf("%s %u: answered %u %u %u %u, not %u %u %u %u\n", what, i, a.refused, a.freed, a.queued, a.cell, refused, freed, queued, cell);
    failed = 1;
}

static unsigned used(const uint16_t *table, unsigned n)
{
    unsigned k = 0;
    for (unsigned i = 0; i < n; i++)
        k += table[i] != 0;
    return k;
}

/* The head is the newest cell. */
static void expect_list(void)
{
    for (unsigned i = 0; i < N; i++)
        if (heap.freed[i] != N - i) {
            printf("freed cell %u is %u, not %u\n", i, heap.freed[i], N - i);
            failed = 1;
            return;
        }
}

int main(void)
{
    expect("fresh", 0, vek_fresh(VEK_LEND(heap)), VEK_DONE, 0, 0, 0);
    /* root 0 holds the chain's head; each new object takes the chain into its slot 0 and becomes the head */
    for (unsigned i = 0; i < N; i++) {
        expect("new", i, vek_new(VEK_LEND_ALL(heap), 1, VEK_OBJECT, 0), VEK_DONE, 0, 0, i);
        expect("store", i, vek_store(VEK_LEND_ALL(heap), 1, 0, 0), VEK_DONE, 0, 0, 0);
        expect("copy", i, vek_copy(VEK_LEND_ALL(heap), 0, 1), VEK_DONE, 0, 0, 0);
        expect("clear", i, vek_clear(VEK_LEND_ALL(heap), 1), VEK_DONE, 0, 0, 0);
    }
    expect("new", N, vek_new(VEK_LEND_ALL(heap), 1, VEK_OBJECT, 0), VEK_FULL, 0, 0, 0);
    expect("collect", 0, vek_collect(VEK_LEND_ALL(heap)), VEK_DONE, 0, 0, 0);
    expect("clear", N, vek_clear(VEK_LEND_ALL(heap), 0), VEK_DONE, N, 0, 0);
    expect_list();
    expect("clear", N + 1, vek_clear(VEK_LEND_ALL(heap), 0), VEK_DONE, 0, 0, 0); /* it frees nothing, and the list is empty */
    unsigned left = used((const uint16_t *)&heap, sizeof heap / sizeof(uint16_t));
    if (left) {
        printf("%u entries are not 0 after the chain is freed\n", left);
        failed = 1;
    }
    printf("%d passed, %d failed\n", !failed, failed);
    return failed;
}
