/* A small engine on the heap: it fills a basket, throws it away, fills another in one batch, runs a finalizer, and sweeps a ring.
   Beside each cell it keeps memory of its own, which it releases when the cell goes. Build and run it with `make host`. */
#include "vekszalir.h"

#include <stdio.h>
#include <stdlib.h>
#include <string.h>

enum { CELLS = 16 };
enum { BASKET, LINE, LOCK, RUNNING }; /* what the roots are used for */

static VEK_STORAGE(CELLS) shop;

static char *text[CELLS]; /* what the engine keeps beside each cell */

static void keep(size_t cell, const char *words)
{
    text[cell] = (char *)malloc(strlen(words) + 1);
    if (text[cell] == NULL)
        exit(1);
    strcpy(text[cell], words);
}

/* The list has the cells that a call freed; an entry is a reference, which is the cell's number plus 1. */
static void release(size_t freed)
{
    for (size_t i = 0; i < freed; i++) {
        size_t cell = shop.freed[i] - 1u;
        printf("    cell %zu went: %s\n", cell, text[cell]);
        free(text[cell]);
        text[cell] = NULL;
    }
}

static unsigned kept(void)
{
    unsigned texts = 0;
    for (size_t cell = 0; cell < CELLS; cell++)
        texts += text[cell] != NULL;
    return texts;
}

/* Prints an answer, and releases what went. An engine that refuses to go on after a refusal needs no other test. */
static vek_answer said(const char *what, vek_answer a)
{
    printf("%-44s %s, freed %u, queued %u, cell %u\n", what, vek_refusal_name(a.refused), a.freed, a.queued, a.cell);
    if (a.refused != VEK_DONE)
        exit(1);
    release(a.freed);
    return a;
}

/* A new cell in a root, and the engine's own memory beside it. */
static void make(const char *what, const char *words, size_t root, size_t kind, size_t finalizer)
{
    keep(said(what, vek_new(VEK_LEND_ALL(shop), root, kind, finalizer)).cell, words);
}

/* An object with three strings in its slots. Once it holds them, the root they came in is not needed. */
static void fill_basket(void)
{
    static const char *const lines[] = {"2 x tea", "1 x jam", "6 x egg"};
    make("a basket", "the basket", BASKET, VEK_OBJECT, 0);
    for (size_t slot = 0; slot < 3; slot++) {
        make("  a line", lines[slot], LINE, VEK_STRING, 0);
        said("  goes into the basket", vek_store(VEK_LEND_ALL(shop), BASKET, slot, LINE));
        said("  and is held by it alone", vek_clear(VEK_LEND_ALL(shop), LINE));
    }
}

/* A basket with one line as one batch, for which the heap is checked once. The answers say which cells came. */
static void fill_basket_at_once(void)
{
    static const vek_record records[] = {
        {VEK_CALL_NEW, BASKET, VEK_OBJECT, 0},
        {VEK_CALL_NEW, LINE, VEK_STRING, 0},
        {VEK_CALL_STORE, BASKET, 0, LINE},
        {VEK_CALL_CLEAR, LINE, 0, 0},
    };
    vek_answer answers[4];
    vek_totals totals = {0, 0, 0, 0};
    said("another basket, in one batch", vek_batch(VEK_LEND(shop), VEK_LEND_TABLE(records), VEK_LEND_TABLE(answers), &totals));
    keep(answers[0].cell, "the other basket");
    keep(answers[1].cell, "3 x bun");
    printf("  calls done %u, refused %u\n", (unsigned)totals.done, (unsigned)totals.refused);
}

/* The host's own code for a finalizer. It may use the object, which the root holds, and everything that it refers to. */
static void release_lock(size_t cell) { printf("  the finalizer of cell %zu releases %s\n", cell, text[cell]); }

/* Each object whose finalizer waits is placed in a root, finalized, and taken off. */
static void run_finalizers(void)
{
    while (shop.control[0] != 0) {
        said("  START", vek_start(VEK_LEND_ALL(shop), RUNNING));
        release_lock(shop.roots[RUNNING] - 1u);
        said("  FINISH", vek_finish(VEK_LEND_ALL(shop)));
    }
}

/* Two objects that hold each other: their counts never fall to 0, so only a sweep finds them. */
static void leave_a_ring(void)
{
    make("an object", "the first of the ring", BASKET, VEK_OBJECT, 0);
    make("another", "the other of the ring", LINE, VEK_OBJECT, 0);
    said("the first holds the other", vek_store(VEK_LEND_ALL(shop), BASKET, 0, LINE));
    said("the other holds the first", vek_store(VEK_LEND_ALL(shop), LINE, 0, BASKET));
    said("the first is let go", vek_clear(VEK_LEND_ALL(shop), BASKET));
    said("the other is let go: a ring", vek_clear(VEK_LEND_ALL(shop), LINE));
}

int main(void)
{
    printf("vekszalir %s\n", VEK_VERSION);
    said("a fresh heap of 16 cells", vek_fresh(VEK_LEND(shop)));
    fill_basket();
    said("the basket is thrown away", vek_clear(VEK_LEND_ALL(shop), BASKET));
    fill_basket_at_once();
    said("it is thrown away, too", vek_clear(VEK_LEND_ALL(shop), BASKET));
    make("a drawer lock with a finalizer", "the drawer lock", LOCK, VEK_OBJECT, 1);
    said("the lock is let go: it waits in the queue", vek_clear(VEK_LEND_ALL(shop), LOCK));
    run_finalizers();
    leave_a_ring();
    said("a sweep", vek_collect(VEK_LEND_ALL(shop)));
    printf("%-44s %u\n", "texts that are still kept", kept());
    vek_answer a = vek_clear(VEK_LEND_ALL(shop), 64);
    printf("%-44s %s: there are roots 0 to 63\n", "root 64", vek_refusal_name(a.refused));
    return a.refused == VEK_NUMBER ? 0 : 1;
}
