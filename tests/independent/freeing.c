/* The freeing step of the independent heap alone, on any tables. Calls refuse damaged tables, so no answer shows which slots
   the step leaves as they were. */
#include "suites.h"

#include "choice.h"
#include "parts.h"
#include "random.h"

#include <stdio.h>
#include <stdlib.h>

static const size_t sizes[] = { 1, 2, 3, 7, 63, 64, 65, 127, 128, CELLS_MAX - 1, CELLS_MAX };

/* Document 01's, and unknown ones, some of which are a string's or a buffer's when they are cut to fewer bits. */
static const uint16_t kinds[] = {
    FREE, OBJECT, STRING, BUFFER, 4, 5, 6, 7, 10, 11, 255, 256, 257, 258, 259, 32770, 65534, 65535,
};

enum { KINDS = sizeof kinds / sizeof *kinds };

/* "the freeing step should write no slot of a string or buffer". Every other entry of the cell becomes 0, and none of
   another cell or table is written. */
static bool becomes_zero(enum table_number t, size_t i, size_t cell, uint16_t kind)
{
    switch (t) {
    case T_KIND:
    case T_FLAGS:
    case T_COUNT:
        return i == cell;
    case T_SLOTS:
        return i / SLOTS == cell && kind != STRING && kind != BUFFER;
    default:
        return false;
    }
}

static void check_table(struct pair *pair, enum table_number t, size_t cell)
{
    const struct table *after = table_of(&pair->ours, t), *before = table_of(&pair->theirs, t);
    uint16_t kind = pair->theirs.kind.at[cell];
    for (size_t i = 0; i < after->len; i++) {
        uint16_t wanted = becomes_zero(t, i, cell, kind) ? 0 : before->at[i];
        if (after->at[i] == wanted)
            continue;
        pair_tell_place();
        printf("cell %zu of kind %u is freed: %s %zu becomes %u, not %u\n", cell, kind, table_names[t], i, after->at[i], wanted);
        exit(1);
    }
}

/* In `ours` the cell is freed; `theirs` has the tables as they were before. */
static void check_tables(struct pair *pair, size_t cell)
{
    for (int t = 0; t < TABLES; t++)
        check_table(pair, t, cell);
}

/* "The freeing step has to say which cell it freed". */
static void check_said(uint16_t said, size_t cell)
{
    if (said == cell + 1)
        return;
    pair_tell_place();
    printf("cell %zu is freed: the step says reference %u, not %zu\n", cell, said, cell + 1);
    exit(1);
}

static void free_alone(struct pair *pair, size_t cell, uint16_t kind)
{
    fill_with_noise(pair);
    pair->ours.kind.at[cell] = kind;
    pair_share(pair);
    pair_step();
    uint16_t said = free_cell(&pair->ours, cell);
    check_tables(pair, cell);
    check_said(said, cell);
}

static void any_tables(size_t cells)
{
    pair_sequence("the freeing step");
    struct pair pair = pair_of(cells);
    for (size_t i = 0; i < KINDS; i++) {
        free_alone(&pair, 0, kinds[i]);
        free_alone(&pair, cells - 1, kinds[i]);
        free_alone(&pair, below(cells), kinds[i]);
    }
    pair_free(&pair);
}

/* The two that free cells by the step, each of them cell 0. */
static void by_work_list(struct run *run)
{
    take_off(run, 0 + 1);
}

static void (*const users[])(struct run *) = { by_work_list, collect };

/* Cell 0, to which no root leads, holds cell 1 in all its slots; a root holds cell 1. */
static void make_holder(struct heap *heap, uint16_t kind)
{
    heap->kind.at[0] = kind;
    heap->kind.at[1] = OBJECT;
    heap->count.at[0] = 1;
    heap->count.at[1] = 1 + SLOTS;
    heap->roots.at[0] = 1 + 1;
    for (size_t slot = 0; slot < SLOTS; slot++)
        *slot_of(heap, 0, slot) = 1 + 1;
}

/* The slots are taken off whatever the kind; only what the step writes depends on it. */
static void free_in_call(void (*user)(struct run *), uint16_t kind)
{
    pair_sequence("the freeing step in a call");
    struct pair pair = pair_of(2);
    struct run run = { .heap = &pair.ours };
    make_holder(&pair.ours, kind);
    pair_share(&pair);
    user(&run);
    pair.theirs.count.at[1] -= SLOTS;
    check_tables(&pair, 0);
    check_said(run.listed == 1 ? run.freed[0] : 0, 0);
    pair_free(&pair);
}

/* COLLECT frees no cell that is free. */
static void in_calls(void (*user)(struct run *))
{
    for (size_t i = 0; i < KINDS; i++)
        if (kinds[i] != FREE)
            free_in_call(user, kinds[i]);
}

void freeing(void)
{
    for (size_t i = 0; i < sizeof sizes / sizeof *sizes; i++)
        any_tables(sizes[i]);
    for (size_t i = 0; i < sizeof users / sizeof *users; i++)
        in_calls(users[i]);
}
