/* Q-1, "Lines that arrive in bits": "However the bytes are cut, an empty delivery among them, the lines, LINE refusals and
   answers are those of the undivided input." */
#include "suites.h"

#include "breaking.h"
#include "choice.h"
#include "handing.h"
#include "made.h"
#include "random.h"
#include "texts.h"

#include <stdlib.h>
#include <string.h>

enum { END_ROOM_MAX = 40 };

/* Good lines, lines that name no call, CR and LF in all places, and ends of every kind. */
static const char *const short_inputs[] = {
    "", "\r", "\n", "\r\n", "\n\r", "\r\r\n", "\r\n\r\n", "\r\n\r", "\n\r\n", "1,0,1,0", "1,0,1,0\r", "1,0,1,0\n",
    "1,0,1,0\r\r\n", "\r1,0,1,0\r\n6,0,0,0", "1,0,1,0\r1,1,1,0\r\n2,0,0,0\r\n", "1,0,1,0\n1,1,1,0\r\n2,0,0,0",
    "1,0,1,0\r\n\r\n2,0,0,0\r\n\r", "1,0,1,1\r\n2,0,0,0\r\n7,3,0,0\r\n8,0,0,0", "00001,63,02,0\r\n3,0,63,0\r\n2,63,0,0\r\n6,0,0",
    "1,0,1,0\r\n5,0,7,0\r\n2,0,0,0\r\n6,0,0,0\r\n", "9,0,0,0\r\n0,0,0,0\r\n8,0,0,1\r\n", "257,0,1,0\r\n264,0,0,0",
    "1,0,1,/\r\n2,1:,0,0\r\n", "1,65535,1,0\r\n1,65536,1,0\r\n1,0,1,000000", "1,0,1,0,\r\n1,0,1\r\n,,,\r\n 6,0,0,0\r\n6,0,0,0 ",
};

enum { SHORT_INPUTS = sizeof short_inputs / sizeof *short_inputs };

static struct text short_input(size_t i)
{
    return (struct text){ short_inputs[i], strlen(short_inputs[i]) };
}

/* With the two cuts in one place, or one at an end, this is the input in two bits, and an empty one. */
static void every_cut(struct text input)
{
    for (size_t first = 0; first <= input.len; first++)
        for (size_t second = first; second <= input.len; second++) {
            const size_t cuts[] = { first, second };
            const struct manner manner = { cuts, 2, chance(50), chance(30), ROOM_MAX };
            pair_sequence("every cut in three");
            struct pair pair = pair_of(1 + second % 3);
            hand_over(&pair, input, &manner);
            pair_free(&pair);
        }
}

static void every_end(struct text input)
{
    for (size_t room = 0; room <= END_ROOM_MAX; room++) {
        const struct manner manner = { .room = room };
        pair_sequence("every room at the end");
        struct pair pair = pair_of(2);
        hand_over(&pair, input, &manner);
        pair_free(&pair);
    }
}

/* A heap that calls have used. */
static struct pair used(size_t cells, size_t calls)
{
    enum mood mood = below(MOODS);
    struct pair pair = pair_of(cells);
    for (size_t i = 0; i < calls; i++)
        knowing_call(&pair, mood);
    return pair;
}

static void every_room(void)
{
    for (size_t i = 0; i < 4 * (ROOM_MAX + 1); i++) {
        const struct manner manner = { .glue = i % 2, .room = i / 4 };
        pair_sequence("every room");
        struct pair pair = used(1 + i % 5, below(20));
        struct text input = random_text(&pair.ours, 12);
        hand_over_cut(&pair, input, below(20), manner);
        text_free(&input);
        pair_free(&pair);
    }
}

/* One input after the other on the same heap. */
static void random_inputs(size_t cells, size_t lines)
{
    pair_sequence("random inputs");
    struct pair pair = used(cells, below(30));
    for (int i = 0; i < 3; i++) {
        struct text input = random_text(&pair.ours, below(lines + 1));
        hand_over_cut(&pair, input, below(2 * lines), random_manner());
        text_free(&input);
    }
    pair_free(&pair);
}

static void byte_by_byte(size_t cells)
{
    pair_sequence("byte by byte");
    struct pair pair = used(cells, below(20));
    struct text input = random_text(&pair.ours, 20);
    size_t *cuts = malloc((input.len + 1) * sizeof *cuts);
    for (size_t i = 0; i <= input.len; i++)
        cuts[i] = i;
    const struct manner manner = { cuts, input.len, chance(50), chance(50), ROOM_MAX };
    hand_over(&pair, input, &manner);
    free(cuts);
    text_free(&input);
    pair_free(&pair);
}

/* So many bytes, and more behind them: wherever the counting of a long line's bytes, digits or fields might begin anew, what
   follows looks like a call. */
static const char *const patterns[] = {
    "0", "1", ",", "1,0,1,0,", "0,", " ", "x", "\r", "\n", "1,0,1,0\r", "6,0,0,0", "6,0,0,0\n",
};
static const char *const behind[] = {
    "", "6,0,0,0\r\n", "1,0,1,0\r\n6,0,0,0\r\n", ",0,0,0\r\n", ",6,0,0,0\r\n1,0,1,0", "\r6,0,0,0\r\n",
};
static const struct {
    size_t from, to;
} spans[] = { { 1, 8 }, { 54, 70 }, { 128, 128 }, { 248, 260 }, { 65528, 65540 }, { 100000, 100000 } };

enum { PATTERNS = sizeof patterns / sizeof *patterns, BEHIND = sizeof behind / sizeof *behind };

static void long_line(struct text input)
{
    pair_sequence("long lines");
    struct pair pair = used(3, 5);
    hand_over_cut(&pair, input, below(30), random_manner());
    text_free(&input);
    pair_free(&pair);
}

/* The last of each pattern begins with a good line, which all but a few digits more spoil. */
static void lines_of(size_t len)
{
    for (size_t p = 0; p < PATTERNS; p++) {
        for (size_t b = 0; b < BEHIND; b++)
            long_line(repeated_text("", patterns[p], len, behind[b]));
        long_line(repeated_text("1,0,1,0", patterns[p], len, "\r\n6,0,0,0\r\n"));
    }
}

static void long_lines(void)
{
    for (size_t i = 0; i < sizeof spans / sizeof *spans; i++)
        for (size_t len = spans[i].from; len <= spans[i].to; len++)
            lines_of(len);
}

static struct pair damaged(size_t cells)
{
    struct pair pair = pair_of(cells);
    const struct damage *damage;
    make_sound(&pair.ours);
    do
        damage = &damages[below(damage_count)];
    while (!damage->apply(&pair.ours, damage));
    pair_share(&pair);
    return pair;
}

/* A table is too long or too short; with 1,025 cells it may be that all fit N. */
static struct pair unfit(size_t cells)
{
    size_t len[TABLES], t = below(TABLES + (cells > CELLS_MAX));
    fitting_lengths(len, cells);
    if (t < TABLES)
        len[t] = chance(50) ? len[t] + 1 + below(3) : below(len[t]);
    struct pair pair = pair_make(len);
    if (chance(50))
        fill_with_noise(&pair);
    return pair;
}

/* The lines suit another heap, which is sound. */
static void refusing(struct pair (*make)(size_t), size_t cells)
{
    pair_sequence("bits on tables that are damaged or don't fit");
    struct pair pair = make(cells), sound = used(3, 10);
    struct text input = random_text(&sound.ours, 10);
    hand_over_cut(&pair, input, below(10), random_manner());
    text_free(&input);
    pair_free(&sound);
    pair_free(&pair);
}

static const struct {
    size_t cells, inputs, lines;
} plan[] = { { 1, 40, 60 }, { 2, 40, 60 }, { 3, 60, 60 }, { 256, 4, 300 }, { 1024, 3, 300 } };

static void each_size(void)
{
    for (size_t p = 0; p < sizeof plan / sizeof *plan; p++)
        for (size_t i = 0; i < plan[p].inputs; i++) {
            random_inputs(plan[p].cells, plan[p].lines);
            byte_by_byte(plan[p].cells);
            refusing(damaged, plan[p].cells);
            refusing(unfit, i % 5 == 4 ? CELLS_MAX + 1 : plan[p].cells);
        }
}

void bits(void)
{
    for (size_t i = 0; i < SHORT_INPUTS; i++) {
        every_cut(short_input(i));
        every_end(short_input(i));
    }
    every_room();
    each_size();
    long_lines();
}
