#include "feed.h"

#include "bytes.h"
#include "coverage.h"

#include <stdio.h>
#include <stdlib.h>
#include <string.h>

/* A call with what it owes and what came of it. */
struct event {
    const char *entry;
    struct text handed;
    struct bytes in, out;
    char *owed_out;
    struct owed owed;
    vek_progress said;
};

struct feed feed_of(struct pair *pair, struct text input)
{
    return (struct feed){ .pair = pair, .whole = whole_of(input) };
}

void feed_free(struct feed *feed)
{
    whole_free(&feed->whole);
}

bool reader_is_empty(vek_reader reader)
{
    return memcmp(&reader, &(vek_reader){ 0 }, sizeof reader) == 0;
}

/* No byte of an answer is like those that `out` is filled with, and these are others in the next call. */
static struct event begin(const char *entry, struct text handed, size_t room)
{
    uint8_t fill = 128 + pair_step() % 128;
    return (struct event){ .entry = entry, .handed = handed, .in = bytes_of(handed), .out = bytes_filled(room, fill),
                           .owed_out = malloc(room + REPLY_MAX + 1) };
}

static bool handed_stays(const struct event *event)
{
    struct bytes before = bytes_of(event->handed);
    bool same = bytes_same(&event->in, &before);
    bytes_free(&before);
    return same;
}

/* What is owed stands at the start of `out`, and nothing else is written. */
static bool out_is_owed(const struct event *event)
{
    struct bytes owed = bytes_filled(event->out.len, event->out.room[0]);
    bytes_put(&owed, event->owed_out, event->owed.written);
    bool same = bytes_same(&event->out, &owed);
    bytes_free(&owed);
    return same;
}

static const char *difference(const struct event *event, struct pair *pair)
{
    if (event->said.taken != event->owed.taken)
        return "another number of bytes is taken";
    if (event->said.written != event->owed.written)
        return "another number of bytes is written";
    if (!out_is_owed(event))
        return "other bytes are written";
    if (!handed_stays(event))
        return "the bytes handed in are changed";
    return pair_difference(pair);
}

static void print_bytes(const char *what, const void *at, size_t len)
{
    const unsigned char *byte = at;
    printf("  %s: ", what);
    for (size_t i = 0; i < len && i < 120; i++)
        printf(byte[i] >= ' ' && byte[i] <= '~' ? "%c" : "\\%02x", byte[i]);
    printf(len > 120 ? " and so on\n" : "\n");
}

/* `out` is shown as far as it goes. */
static void report(const struct event *event, const struct feed *feed, const char *what)
{
    const struct text *input = &feed->whole.input;
    size_t written = event->said.written < event->out.len ? event->said.written : event->out.len;
    pair_tell_place();
    printf("%s of %zu bytes with room for %zu\n", event->entry, event->handed.len, event->out.len);
    printf("  owed: taken %zu, written %zu\n", event->owed.taken, event->owed.written);
    printf("  said: taken %zu, written %zu\n", event->said.taken, event->said.written);
    print_bytes("input", input->at, input->len);
    print_bytes("handed in", event->handed.at, event->handed.len);
    print_bytes("owed", event->owed_out, event->owed.written);
    print_bytes("written", bytes_lent(&event->out), written);
    printf("  %s\n", what);
    exit(1);
}

static void end_event(struct event *event)
{
    bytes_free(&event->in);
    bytes_free(&event->out);
    free(event->owed_out);
}

static void note_take(const struct event *event)
{
    struct text handed = event->handed;
    if (event->owed.taken == handed.len && handed.len > 0 && handed.at[handed.len - 1] == '\r')
        coverage_landmark(TAKE_ENDS_WITH_CR);
    if (event->owed.taken < handed.len)
        coverage_landmark(event->owed.taken == 0 ? TAKE_WITHOUT_ROOM : TAKE_FILLS_ROOM);
}

void feed_take(struct feed *feed, size_t len, size_t room)
{
    struct text handed = { feed->whole.input.at + feed->whole.taken, len };
    struct event event = begin("vek_take", handed, room);
    event.said = tested_take(&feed->pair->theirs, feed->reader, &event.in, &event.out);
    event.owed = whole_take(&feed->whole, &feed->pair->ours, len, room, event.owed_out);
    const char *found = difference(&event, feed->pair);
    if (found != NULL)
        report(&event, feed, found);
    note_take(&event);
    feed->reader = event.said.reader;
    end_event(&event);
}

/* "the reader is VEK_READER_START again", or "comes back as it was" */
static const char *end_difference(const struct event *event, const struct feed *feed)
{
    const char *found = difference(event, feed->pair);
    if (found != NULL)
        return found;
    if (event->owed.done)
        return reader_is_empty(event->said.reader) ? NULL : "the reader still holds something";
    return memcmp(&event->said.reader, &feed->reader, sizeof feed->reader) == 0 ? NULL : "the reader is another one";
}

bool feed_end(struct feed *feed, size_t room)
{
    struct event event = begin("vek_end", (struct text){ "", 0 }, room);
    event.said = tested_end(&feed->pair->theirs, feed->reader, &event.out);
    event.owed = whole_end(&feed->whole, &feed->pair->ours, room, event.owed_out);
    const char *found = end_difference(&event, feed);
    if (found != NULL)
        report(&event, feed, found);
    coverage_landmark(!event.owed.done ? END_WITHOUT_ROOM : event.owed.written > 0 ? END_ANSWERS : END_WITH_NOTHING);
    feed->reader = event.said.reader;
    end_event(&event);
    return event.owed.done;
}
