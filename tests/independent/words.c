#include "words.h"

#include "heap.h"

const size_t word_sizes[WORD_SIZES] = {
    1, WORD - 1, WORD, WORD + 1, 2 * WORD - 1, 2 * WORD, CELLS_MAX - 1, CELLS_MAX,
};

bool at_border(size_t cell, size_t cells)
{
    return cell % WORD == 0 || cell % WORD == WORD - 1 || cell == cells - 1;
}

bool looked_at(size_t cell, size_t cells)
{
    return cells <= 2 * WORD || at_border(cell, cells) || cell % WORD == 1;
}
