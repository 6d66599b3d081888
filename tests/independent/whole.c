#include "whole.h"

#include "coverage.h"

#include <stdlib.h>

/* The next line and the place where it ends; false if nothing is left. */
static bool split_off(struct text *rest, size_t len, struct line *line)
{
    if (!next_line(rest, &line->text))
        return false;
    line->end = len - rest->len;
    line->closed = line->text.at + line->text.len != rest->at;
    return true;
}

struct whole whole_of(struct text input)
{
    struct whole whole = { .input = input };
    struct text rest = input;
    struct line line;
    while (split_off(&rest, input.len, &line)) {
        whole.lines = realloc(whole.lines, (whole.count + 1) * sizeof line);
        whole.lines[whole.count++] = line;
    }
    return whole;
}

void whole_free(struct whole *whole)
{
    free(whole->lines);
}

static size_t answer_next(struct whole *whole, struct heap *heap, char *out)
{
    struct reply reply = answer_line(heap, whole->lines[whole->answered++].text);
    coverage_reply(reply);
    return put_reply(out, reply);
}

/* Whether a line ends, with its CR LF, within so many bytes of the input. */
static bool ends_within(const struct whole *whole, size_t bytes)
{
    const struct line *line = &whole->lines[whole->answered];
    return whole->answered < whole->count && line->closed && line->end <= bytes;
}

/* "Takes bytes one by one while `out` has room for a longest answer behind what is written, and answers each line that
   ends." So it goes from line to line, and where none ends any more to the last byte. */
struct owed whole_take(struct whole *whole, struct heap *heap, size_t len, size_t room, char *out)
{
    size_t from = whole->taken, to = from + len, written = 0;
    while (whole->taken < to && room - written >= REPLY_MAX) {
        bool ends = ends_within(whole, to);
        whole->taken = ends ? whole->lines[whole->answered].end : to;
        if (ends)
            written += answer_next(whole, heap, out + written);
    }
    return (struct owed){ .taken = whole->taken - from, .written = written };
}

/* "A line that is held is answered, and the reader is VEK_READER_START again [..] But where a line is held and `out` has no
   room for a longest answer, nothing is done" */
struct owed whole_end(struct whole *whole, struct heap *heap, size_t room, char *out)
{
    if (whole->answered == whole->count)
        return (struct owed){ .done = true };
    if (room < REPLY_MAX)
        return (struct owed){ .done = false };
    return (struct owed){ .written = answer_next(whole, heap, out), .done = true };
}
