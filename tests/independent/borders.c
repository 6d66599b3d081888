/* "the cell found is the lowest such from a given one on, none exactly if there is none". Some cells have one fate and all
   the others another, with the difference at every place of a word. */
#include "suites.h"

#include "fates.h"
#include "words.h"

/* The cells chosen: from the first one on, each so many-th below the end. */
struct choice {
    size_t first, step, end;
};

/* The fate of the cells chosen, and that of all the others. */
struct contrast {
    enum fate chosen, rest;
};

static void play(size_t cells, struct choice choice, struct contrast contrast)
{
    enum fate fates[CELLS_MAX];
    for (size_t cell = 0; cell < cells; cell++)
        fates[cell] = contrast.rest;
    for (size_t cell = choice.first; cell < choice.end; cell += choice.step)
        fates[cell] = contrast.chosen;
    struct pair pair = pair_of_fates("fates at the borders of words", cells, fates);
    collect_demanding(&pair, with_fate(fates, cells, LOOSE), with_fate(fates, cells, FINALIZABLE));
    pair_free(&pair);
}

static void all_contrasts(size_t cells, struct choice choice)
{
    for (enum fate chosen = UNUSED; chosen < FATES; chosen++)
        for (enum fate rest = UNUSED; rest < FATES; rest++)
            if (chosen != rest)
                play(cells, choice, (struct contrast){ chosen, rest });
}

static void single_cells(size_t cells)
{
    for (size_t cell = 0; cell < cells; cell++)
        if (looked_at(cell, cells))
            all_contrasts(cells, (struct choice){ cell, 1, cell + 1 });
}

/* All cells from a border on, and the same cell of each word. */
static void many_cells(size_t cells)
{
    for (size_t cell = 0; cell < cells; cell++) {
        if (at_border(cell, cells))
            all_contrasts(cells, (struct choice){ cell, 1, cells });
        if (at_border(cell, cells) && cell < WORD)
            all_contrasts(cells, (struct choice){ cell, WORD, cells });
    }
}

/* The second one has to be found from the first one on, in its word or in a later one, at a higher or a lower bit. */
static void two_cells(size_t cells, size_t one, size_t other)
{
    struct choice both = { one, other - one, other + 1 };
    play(cells, both, (struct contrast){ LOOSE, KEPT });
    play(cells, both, (struct contrast){ FINALIZABLE, KEPT });
}

static void pairs_at_borders(size_t cells)
{
    for (size_t one = 0; one < cells; one++)
        for (size_t other = one + 1; other < cells; other++)
            if (at_border(one, cells) && at_border(other, cells))
                two_cells(cells, one, other);
}

/* The first one is any cell of two words, and the second one each ninth after it, which is enough to meet higher and lower bits. */
static void pairs_anywhere(void)
{
    for (size_t one = 0; one < 2 * WORD; one++)
        for (size_t other = one + 1; other < 2 * WORD; other += 9)
            two_cells(2 * WORD, one, other);
}

void borders(void)
{
    for (size_t i = 0; i < WORD_SIZES; i++) {
        single_cells(word_sizes[i]);
        many_cells(word_sizes[i]);
        pairs_at_borders(word_sizes[i]);
    }
    pairs_anywhere();
}
