/* Situations that random lists seldom meet. */
#include "suites.h"

#include "steps.h"

/* The cell being finalised holds two with finalizers, and its running root holds another by now: what FINISH queues, and
   in what order, comes from both of its take-offs. */
static const struct step finish_queues[] = {
    { NEW, { 0, OBJECT, 1 } }, { NEW, { 1, OBJECT, 1 } }, { STORE, { 0, 0, 1 } }, { CLEAR, { 1 } },
    { NEW, { 1, OBJECT, 1 } }, { STORE, { 0, 7, 1 } }, { CLEAR, { 1 } }, { CLEAR, { 0 } }, { START, { 2 } },
    { CLEAR, { 2 } }, { NEW, { 2, OBJECT, 1 } }, { FINISH, { 0 } }, { DRAIN, { 0 } }, { END, { 0 } },
};

/* A finalizer that stores its cell away, and one that makes a ring of it. */
static const struct step finish_rescues[] = {
    { NEW, { 0, OBJECT, 0 } }, { NEW, { 1, OBJECT, 1 } }, { CLEAR, { 1 } }, { START, { 1 } }, { STORE, { 0, 7, 1 } },
    { STORE, { 1, 0, 0 } }, { FINISH, { 0 } }, { STORE, { 0, 7, 2 } }, { NEW, { 1, OBJECT, 1 } }, { CLEAR, { 1 } },
    { START, { 1 } }, { STORE, { 1, 3, 1 } }, { COLLECT, { 0 } }, { FINISH, { 0 } }, { COLLECT, { 0 } }, { END, { 0 } },
};

static const struct step *const finishes[] = { finish_queues, finish_rescues };

static void finish_corner(const struct step *steps)
{
    pair_sequence("what a finalizer does with its cell");
    struct pair pair = pair_of(8);
    play(&pair, steps);
    pair_free(&pair);
}

/* Calls on tables that are made directly, and are sound. */
static void made_corner(const char *part, size_t cells, void (*make)(struct heap *), const struct step *steps)
{
    struct pair pair = pair_made(part, cells, make);
    play(&pair, steps);
    pair_free(&pair);
}

/* COPY of a root to itself raises the largest count once more before it falls. */
static const struct step with_largest[] = {
    { COPY, { 0, 0 } }, { COPY, { 63, 1 } }, { LOAD, { 5, 5, 0 } }, { STORE, { 5, 3, 9 } }, { COLLECT, { 0 } }, { CLEAR, { 60 } },
    { START, { 60 } }, { COLLECT, { 0 } }, { STORE, { 60, 0, 61 } }, { FINISH, { 0 } }, { COLLECT, { 0 } }, { DRAIN, { 0 } },
    { COLLECT, { 0 } }, { END, { 0 } },
};

static void fill(const struct table *table, uint16_t value)
{
    for (size_t i = 0; i < table->len; i++)
        table->at[i] = value;
}

/* "The largest count is 64 + 8,192 + 1 = 8,257": every root and every slot hold cell 0, and all cells are queued, the last
   one at the head. */
static void make_largest(struct heap *heap)
{
    size_t n = heap->kind.len;
    fill(&heap->kind, OBJECT);
    fill(&heap->flags, FINALIZER);
    fill(&heap->count, 1);
    fill(&heap->slots, 1);
    fill(&heap->roots, 1);
    for (size_t i = 0; i < n; i++)
        heap->queue.at[i] = n - i;
    heap->control.at[LENGTH] = n;
    heap->count.at[0] = ROOTS + SLOTS * n + 1;
}

/* All cells are freed by one call: a write, a sweep or a FINISH. */
static const struct step cleared[] = { { CLEAR, { 0 } }, { END, { 0 } } };
static const struct step swept[] = { { STORE, { 0, 7, 0 } }, { CLEAR, { 0 } }, { COLLECT, { 0 } }, { END, { 0 } } };
static const struct step finished[] = {
    { COLLECT, { 0 } }, { CLEAR, { 0 } }, { START, { 0 } }, { FINISH, { 0 } }, { END, { 0 } },
};

static const struct step *const freed_at_once[] = { cleared, swept, finished };

/* Cell 0, which is finalised and in root 0, holds the next one in all its slots, and so does each other but the last: a count
   is met at 8 and at every number below, down to 1. */
static void make_eightfold_chain(struct heap *heap)
{
    fill(&heap->kind, OBJECT);
    fill(&heap->count, SLOTS);
    heap->flags.at[0] = FINALIZER | FINALISED;
    heap->count.at[0] = 1;
    heap->roots.at[0] = 1;
    for (size_t i = 0; i < heap->slots.len - SLOTS; i++)
        heap->slots.at[i] = i / SLOTS + 2;
}

static void eightfold_chain(size_t cells)
{
    for (size_t i = 0; i < sizeof freed_at_once / sizeof *freed_at_once; i++)
        made_corner("cells that hold the next one eight times", cells, make_eightfold_chain, freed_at_once[i]);
}

/* "no flags 3 become 1 in that COLLECT". The finalised cells hang from the one that waits and then runs. */
static const struct step hang_from_queue[] = {
    { CLEAR, { 0 } }, { COLLECT, { 0 } }, { START, { 63 } }, { COLLECT, { 0 } }, { FINISH, { 0 } }, { COLLECT, { 0 } },
    { END, { 0 } },
};

/* A root holds them as well; the running root is emptied, and after FINISH so is the queue. */
static const struct step hang_from_root[] = {
    { LOAD, { 1, 0, 7 } }, { CLEAR, { 0 } }, { COLLECT, { 0 } }, { START, { 63 } }, { COLLECT, { 0 } }, { CLEAR, { 63 } },
    { COLLECT, { 0 } }, { FINISH, { 0 } }, { COLLECT, { 0 } }, { CLEAR, { 1 } }, { COLLECT, { 0 } }, { DRAIN, { 0 } },
    { END, { 0 } },
};

/* "if the queue held anything when COLLECT began": it held nothing, and here COLLECT itself puts their holder in it. */
static const struct step hang_from_ring[] = {
    { STORE, { 0, 0, 0 } }, { CLEAR, { 0 } }, { COLLECT, { 0 } }, { COLLECT, { 0 } }, { DRAIN, { 0 } }, { COLLECT, { 0 } },
    { DRAIN, { 0 } }, { END, { 0 } },
};

/* Their holder is in a root, and they are rescued before it joins the queue. */
static const struct step hang_from_used[] = {
    { COLLECT, { 0 } }, { CLEAR, { 0 } }, { COLLECT, { 0 } }, { DRAIN, { 0 } }, { END, { 0 } },
};

static const struct step *const hangings[] = { hang_from_queue, hang_from_root, hang_from_ring, hang_from_used };

/* Cell 0, with a finalizer and in root 0, holds a chain of finalised cells. */
static void make_finalised_chain(struct heap *heap)
{
    fill(&heap->kind, OBJECT);
    fill(&heap->flags, FINALIZER | FINALISED);
    fill(&heap->count, 1);
    heap->flags.at[0] = FINALIZER;
    heap->roots.at[0] = 1;
    for (size_t cell = 1; cell < heap->kind.len; cell++)
        heap->slots.at[SLOTS * cell - 1] = cell + 1;
}

static void finalised_chain(size_t cells)
{
    for (size_t i = 0; i < sizeof hangings / sizeof *hangings; i++)
        made_corner("finalised cells in a chain", cells, make_finalised_chain, hangings[i]);
}

/* All cells but the last wait, and the last one, which is finalised, hangs from cell 0. */
static void make_waiting(struct heap *heap)
{
    size_t last = heap->kind.len - 1;
    fill(&heap->kind, OBJECT);
    fill(&heap->flags, FINALIZER);
    fill(&heap->count, 1);
    heap->flags.at[last] |= FINALISED;
    heap->slots.at[0] = last + 1;
    for (size_t i = 0; i < last; i++)
        heap->queue.at[i] = i + 1;
    heap->control.at[LENGTH] = last;
}

/* However long the queue is, it "held anything". */
static const size_t queue_lengths[] = { 1, 2, 255, 256, 257, 512, 768, 1023 };

static const struct step with_queue[] = {
    { COLLECT, { 0 } }, { START, { 63 } }, { COLLECT, { 0 } }, { FINISH, { 0 } }, { END, { 0 } },
};

static void finalised_from_queue(void)
{
    for (size_t i = 0; i < sizeof queue_lengths / sizeof *queue_lengths; i++)
        made_corner("a finalised cell and a long queue", queue_lengths[i] + 1, make_waiting, with_queue);
}

void corners(void)
{
    for (size_t i = 0; i < sizeof finishes / sizeof *finishes; i++)
        finish_corner(finishes[i]);
    made_corner("the largest count", CELLS_MAX, make_largest, with_largest);
    eightfold_chain(2);
    eightfold_chain(CELLS_MAX);
    finalised_chain(2);
    finalised_chain(CELLS_MAX);
    finalised_from_queue();
}
