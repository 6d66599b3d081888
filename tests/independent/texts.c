#include "texts.h"

#include "choice.h"
#include "random.h"

#include <stdio.h>
#include <stdlib.h>
#include <string.h>

enum { LINE_ROOM = 120 };

static const char *const ends[] = { "", "\r\n", "\r", "\n", "\r\n\r\n", "\r\n\r", "\r\r\n" };
static const int widths[] = { 1, 1, 1, 2, 5 };
static const char spoilers[] = "0123456789/:,,,,\r\r\n\n \"-x\0\377"; /* the NUL at its end is one of them too */

void text_free(struct text *text)
{
    free((char *)text->at);
}

static void append(struct text *text, const char *bytes, size_t len)
{
    char *at = realloc((char *)text->at, text->len + len + 1); /* never of 0 bytes */
    memcpy(at + text->len, bytes, len);
    *text = (struct text){ at, text->len + len };
}

/* A byte is replaced, put in or left out. */
static size_t spoil(char line[LINE_ROOM], size_t len)
{
    size_t at = below(len), kept = at + below(2), to = at + below(2);
    char spoiler = spoilers[below(sizeof spoilers)];
    memmove(line + to, line + kept, len - kept);
    if (to > at)
        line[at] = spoiler;
    return len - kept + to;
}

static int some_width(void)
{
    return widths[below(sizeof widths / sizeof *widths)];
}

static size_t call_line(char line[LINE_ROOM], const struct heap *heap, enum mood mood)
{
    struct wish wish = knowing_wish(heap, mood);
    size_t *arg = wish.arg, op = chance(3) ? wild_number() : wish.op;
    for (size_t i = arguments_of(wish.op); i < 3 && !chance(3); i++)
        arg[i] = 0;
    return sprintf(line, "%0*zu,%0*zu,%0*zu,%0*zu", some_width(), op, some_width(), arg[0], some_width(), arg[1],
                   some_width(), arg[2]);
}

/* The line is answered here as well, so that the next one suits what the heap holds then. */
static void append_call(struct text *text, struct heap *heap, enum mood mood)
{
    char line[LINE_ROOM];
    size_t len = call_line(line, heap, mood);
    while (len > 1 && chance(12))
        len = spoil(line, len);
    answer_line(heap, (struct text){ line, len });
    append(text, line, len);
}

struct text random_text(struct heap *heap, size_t lines)
{
    struct heap copy = exact_copy(heap);
    struct text text = { NULL, 0 };
    enum mood mood = below(MOODS);
    const char *end = ends[below(sizeof ends / sizeof *ends)];
    for (size_t i = 0; i < lines; i++) {
        append(&text, "\r\n", i == 0 ? 0 : 2);
        append_call(&text, &copy, chance(90) ? mood : below(MOODS));
    }
    append(&text, end, strlen(end));
    exact_heap_free(&copy);
    return text;
}

struct text repeated_text(const char *before, const char *pattern, size_t len, const char *behind)
{
    size_t from = strlen(before), to = from + len, all = to + strlen(behind), once = strlen(pattern);
    char *at = malloc(all + 1);
    memcpy(at, before, from);
    for (size_t i = 0; i < len; i++)
        at[from + i] = pattern[i % once];
    memcpy(at + to, behind, all - to);
    return (struct text){ at, all };
}
