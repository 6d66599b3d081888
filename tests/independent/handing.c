#include "handing.h"

#include "random.h"

#include <stdlib.h>

static size_t room_for(const struct manner *manner, unsigned tries)
{
    if (manner->mixed)
        return below(ROOM_MAX + 1);
    return manner->room < REPLY_MAX && tries % 2 == 1 ? manner->room + REPLY_MAX : manner->room;
}

/* So many bytes of the input have come. They are handed in once, or until they are all taken. */
static void hand_in(struct feed *feed, size_t come, const struct manner *manner, bool all)
{
    unsigned tries = 0;
    do
        feed_take(feed, come - feed->whole.taken, room_for(manner, tries++));
    while (all && feed->whole.taken < come);
}

static void end(struct feed *feed, const struct manner *manner)
{
    unsigned tries = 0;
    while (!feed_end(feed, room_for(manner, tries)))
        tries++;
    feed_end(feed, room_for(manner, 0));
}

void hand_over(struct pair *pair, struct text input, const struct manner *manner)
{
    struct feed feed = feed_of(pair, input);
    for (size_t i = 0; i < manner->count; i++)
        hand_in(&feed, manner->cuts[i], manner, !manner->glue);
    hand_in(&feed, input.len, manner, true);
    end(&feed, manner);
    feed_free(&feed);
}

static int rising(const void *a, const void *b)
{
    size_t left = *(const size_t *)a, right = *(const size_t *)b;
    return (left > right) - (left < right);
}

/* Two cuts in the same place make an empty bit. */
void hand_over_cut(struct pair *pair, struct text input, size_t count, struct manner manner)
{
    size_t *cuts = malloc((count + 1) * sizeof *cuts);
    for (size_t i = 0; i < count; i++)
        cuts[i] = below(input.len + 1);
    qsort(cuts, count, sizeof *cuts, rising);
    manner.cuts = cuts, manner.count = count;
    hand_over(pair, input, &manner);
    free(cuts);
}

struct manner random_manner(void)
{
    return (struct manner){ .glue = chance(50), .mixed = chance(50), .room = chance(50) ? below(ROOM_MAX + 1) : below(4000) };
}
