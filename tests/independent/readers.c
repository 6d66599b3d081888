/* "What other numbers mean is the library's business; any are answered": whatever stands in a reader, no more is taken
   and written than there is, and the end of the input leaves nothing held. */
#include "suites.h"

#include "bytes.h"
#include "choice.h"
#include "handing.h"
#include "random.h"
#include "texts.h"

#include <stdio.h>
#include <stdlib.h>
#include <string.h>

enum { FILL = 0xc3, READERS = 400 };

static uint16_t some_number(void)
{
    return chance(60) ? below(8) : chance(50) ? below(65536) : 65535 - below(3);
}

static vek_reader some_reader(void)
{
    vek_reader reader = { some_number(), some_number(), some_number(), some_number(), some_number(), some_number(), some_number() };
    return chance(50) ? (vek_reader){ .field = reader.field, .digits = reader.digits, .a = reader.a } : reader;
}

static void check(bool holds, vek_reader reader, const char *what)
{
    if (holds)
        return;
    pair_tell_place();
    printf("a reader of %u, %u, %u, %u, %u, %u, %u: %s\n", reader.cr, reader.field, reader.digits, reader.a, reader.b, reader.c,
           reader.d, what);
    exit(1);
}

/* Behind what is written, and around it, `out` is as it was. */
static bool rest_stays(const struct bytes *out, size_t written)
{
    struct bytes wanted = bytes_filled(out->len, FILL);
    bytes_put(&wanted, bytes_lent(out), written);
    bool same = bytes_same(out, &wanted);
    bytes_free(&wanted);
    return same;
}

/* "With room for one answer at least one byte is taken, if there is one" */
static vek_reader take(struct pair *pair, vek_reader reader, struct text input, size_t room)
{
    struct bytes in = bytes_of(input), before = bytes_of(input), out = bytes_filled(room, FILL);
    vek_progress said = tested_take(&pair->theirs, reader, &in, &out);
    pair_step();
    check(said.taken <= input.len && said.written <= room, reader, "more is taken or written than there is");
    check(room >= REPLY_MAX || (said.taken == 0 && said.written == 0), reader, "something is done without room");
    check(room < REPLY_MAX || input.len == 0 || said.taken > 0, reader, "nothing is taken");
    check(rest_stays(&out, said.written), reader, "vek_take writes behind what it says");
    check(bytes_same(&in, &before), reader, "the bytes handed in are changed");
    bytes_free(&in), bytes_free(&before), bytes_free(&out);
    return said.reader;
}

static vek_reader end(struct pair *pair, vek_reader reader, size_t room)
{
    struct bytes out = bytes_filled(room, FILL);
    vek_progress said = tested_end(&pair->theirs, reader, &out);
    bool stays = memcmp(&said.reader, &reader, sizeof reader) == 0;
    pair_step();
    check(said.taken == 0, reader, "vek_end takes something");
    check(said.written <= (room < REPLY_MAX ? 0 : REPLY_MAX), reader, "vek_end writes too much");
    check(reader_is_empty(said.reader) || (room < REPLY_MAX && stays), reader, "something is held after the end");
    check(rest_stays(&out, said.written), reader, "vek_end writes behind what it says");
    bytes_free(&out);
    return said.reader;
}

/* Several bits, then the end, without room at first and then with it. */
static void any_reader(struct pair *pair, struct text input)
{
    vek_reader reader = some_reader();
    for (int i = 0; i < 3; i++) {
        size_t from = below(input.len + 1);
        struct text bit = { input.at + from, below(input.len - from + 1) };
        reader = take(pair, chance(30) ? some_reader() : reader, bit, below(ROOM_MAX + 1));
    }
    reader = end(pair, reader, below(REPLY_MAX));
    end(pair, reader, REPLY_MAX + below(10));
    end(pair, some_reader(), REPLY_MAX);
}

/* What a line that the reader was said to hold has done is not known here: but the heap stays sound, and all is well with it
   after the end. */
static void on_sound(size_t cells)
{
    pair_sequence("any readers");
    struct pair pair = pair_of(cells);
    struct text input = random_text(&pair.ours, 12);
    any_reader(&pair, input);
    copy_tables(&pair.ours, &pair.theirs);
    demand(pair_call(&pair, START, ROOTS, 0, 0).refused == NUMBER, "the heap stays sound");
    hand_over_cut(&pair, input, below(10), random_manner());
    text_free(&input);
    pair_free(&pair);
}

/* Tables that are damaged, or that don't fit N, stay as they are. */
static void on_refusing(size_t cells, size_t queue)
{
    size_t len[TABLES];
    pair_sequence("any readers on tables that are damaged or don't fit");
    struct pair sound = pair_of(cells);
    struct text input = random_text(&sound.ours, 12);
    fitting_lengths(len, cells);
    len[T_QUEUE] = queue;
    struct pair pair = pair_make(len);
    fill_with_noise(&pair);
    any_reader(&pair, input);
    check(pair_difference(&pair) == NULL, (vek_reader){ 0 }, "the tables are changed");
    text_free(&input);
    pair_free(&sound);
    pair_free(&pair);
}

void readers(void)
{
    for (size_t i = 0; i < READERS; i++) {
        on_sound(1 + i % 5);
        on_refusing(3, 3);
        on_refusing(2, below(4));
    }
}
