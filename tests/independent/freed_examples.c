/* lists of freed cells that are worked out by hand. In a cascade what was let go of first is first; of a FINISH, all that
   the running root's take-off frees is before what the bump's frees. */
#include "suites.h"

#include "steps.h"

enum { CELLS = 8, STEPS = 16 };

/* The calls, the last of which gives the list: references, and 0 behind them. */
struct example {
    const char *name;
    struct step steps[STEPS];
    uint16_t list[CELLS];
};

/* Object 0, and what the next cells are, in the roots of the same numbers. */
#define OBJECT_AND_TWO(one, two) { NEW, { 0, OBJECT, 0 } }, { NEW, { 1, one, 0 } }, { NEW, { 2, two, 0 } }
#define CLEAR_TWO { CLEAR, { 1 } }, { CLEAR, { 2 } }

/* Fin 0, whose finalizer runs in root 0. */
#define RUNNING_0 { NEW, { 0, OBJECT, 1 } }, { CLEAR, { 0 } }, { START, { 0 } }

/* It holds string 1, and root 1 holds object 2, which holds string 3. */
#define RUNNING_0_HOLDS_1                                                                                     \
    RUNNING_0, { NEW, { 1, STRING, 0 } }, { STORE, { 0, 0, 1 } }, { CLEAR, { 1 } }, { NEW, { 1, OBJECT, 0 } },  \
        { NEW, { 2, STRING, 0 } }, { STORE, { 1, 0, 2 } }, { CLEAR, { 2 } }

static const struct example examples[] = {
    { "NEW frees nothing", { { NEW, { 0, OBJECT, 0 } }, { END, { 0 } } }, { 0 } },
    { "a root that is empty", { { CLEAR, { 0 } }, { END, { 0 } } }, { 0 } },
    { "one of two references", { { NEW, { 0, OBJECT, 0 } }, { COPY, { 1, 0 } }, { CLEAR, { 0 } }, { END, { 0 } } }, { 0 } },
    { "START frees nothing", { RUNNING_0, { END, { 0 } } }, { 0 } },
    { "one cell", { { NEW, { 0, BUFFER, 0 } }, { CLEAR, { 0 } }, { END, { 0 } } }, { 0 + 1 } },
    { "the old target of COPY",
      { OBJECT_AND_TWO(STRING, STRING), { COPY, { 2, 1 } }, { END, { 0 } } },
      { 2 + 1 } },
    { "the holder of what LOAD takes",
      { OBJECT_AND_TWO(STRING, OBJECT), { STORE, { 2, 3, 1 } }, { CLEAR, { 1 } }, { LOAD, { 2, 2, 3 } }, { END, { 0 } } },
      { 2 + 1 } },
    { "the old target of STORE",
      { OBJECT_AND_TWO(BUFFER, STRING), { STORE, { 0, 7, 2 } }, { CLEAR, { 2 } }, { STORE, { 0, 7, 1 } }, { END, { 0 } } },
      { 2 + 1 } },
    { "the order of the slots",
      { OBJECT_AND_TWO(STRING, STRING), { STORE, { 0, 0, 2 } }, { STORE, { 0, 1, 1 } }, CLEAR_TWO, { CLEAR, { 0 } },
        { END, { 0 } } },
      { 0 + 1, 2 + 1, 1 + 1 } },
    /* object 0 holds 3 and 2, and 3 holds 1 */
    { "oldest first",
      { OBJECT_AND_TWO(STRING, OBJECT), { NEW, { 3, OBJECT, 0 } }, { STORE, { 3, 0, 1 } }, { STORE, { 0, 0, 3 } },
        { STORE, { 0, 1, 2 } }, { CLEAR, { 3 } }, CLEAR_TWO, { CLEAR, { 0 } }, { END, { 0 } } },
      { 0 + 1, 3 + 1, 2 + 1, 1 + 1 } },
    /* object 0 holds 1 and 2, and 2 holds 1 as well */
    { "the last reference counts",
      { OBJECT_AND_TWO(STRING, OBJECT), { STORE, { 0, 0, 1 } }, { STORE, { 0, 1, 2 } }, { STORE, { 2, 0, 1 } }, CLEAR_TWO,
        { CLEAR, { 0 } }, { END, { 0 } } },
      { 0 + 1, 2 + 1, 1 + 1 } },
    { "a cell that is queued is not freed",
      { OBJECT_AND_TWO(OBJECT, STRING), { NEW, { 3, OBJECT, 1 } }, { STORE, { 0, 0, 2 } }, { STORE, { 0, 1, 3 } },
        { STORE, { 0, 2, 1 } }, { CLEAR, { 3 } }, CLEAR_TWO, { CLEAR, { 0 } }, { END, { 0 } } },
      { 0 + 1, 2 + 1, 1 + 1 } },
    /* object 2 holds itself and object 0; object 1 stays */
    { "COLLECT in cell order",
      { OBJECT_AND_TWO(OBJECT, OBJECT), { STORE, { 2, 0, 2 } }, { STORE, { 2, 1, 0 } }, { CLEAR, { 0 } }, { CLEAR, { 2 } },
        { COLLECT, { 0 } }, { END, { 0 } } },
      { 0 + 1, 2 + 1 } },
    { "FINISH, the bump alone", { RUNNING_0, { CLEAR, { 0 } }, { FINISH, { 0 } }, { END, { 0 } } }, { 0 + 1 } },
    { "FINISH, the running root alone",
      { RUNNING_0, { COPY, { 1, 0 } }, { CLEAR, { 0 } }, { NEW, { 0, STRING, 0 } }, { FINISH, { 0 } }, { END, { 0 } } },
      { 1 + 1 } },
    { "FINISH, both on the cell", { RUNNING_0_HOLDS_1, { FINISH, { 0 } }, { END, { 0 } } }, { 0 + 1, 1 + 1 } },
    { "FINISH, the running root before the bump",
      { RUNNING_0_HOLDS_1, { COPY, { 0, 1 } }, { CLEAR, { 1 } }, { FINISH, { 0 } }, { END, { 0 } } },
      { 2 + 1, 3 + 1, 0 + 1, 1 + 1 } },
};

static bool same_list(const struct table *list, const uint16_t wanted[CELLS])
{
    for (size_t i = 0; i < list->len; i++)
        if (list->at[i] != wanted[i])
            return false;
    return true;
}

static void give(const struct example *example)
{
    pair_sequence(example->name);
    struct pair pair = pair_of(CELLS);
    play(&pair, example->steps);
    demand(same_list(&pair.freed.ours, example->list), "the list of freed cells is another one");
    pair_free(&pair);
}

void freed_examples(void)
{
    for (size_t i = 0; i < sizeof examples / sizeof *examples; i++)
        give(&examples[i]);
}
