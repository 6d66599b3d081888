/* "if any of the four could pass its end by adding 1,024 times the list's length, the batch is refused 12 TOTAL". */
#include "suites.h"

#include "batching.h"
#include "totals.h"

/* By a round of these the calls done rise by 6, those refused by 3, the cells freed by 2 and those queued by 1; the heap is as it
   was before. */
static const struct record turn[] = {
    { NEW, 0, OBJECT, 1 }, { CLEAR, 0, 0, 0 }, { START, 0, 0, 0 }, { FINISH, 0, 0, 0 }, { FINISH, 0, 0, 0 },
    { NEW, 0, STRING, 0 }, { CLEAR, 0, 0, 0 }, { CLEAR, 0, 0, 1 }, { 9, 0, 0, 0 },
};

enum { TURN = sizeof turn / sizeof *turn, ROUNDS = 40 };

static const size_t list_lengths[] = { 1, 2, 3, TURN, 63, 64, 65, 256, 1000, RECORDS_MAX - 1, RECORDS_MAX };

static struct record list[RECORDS_MAX];

static void fill_list(void)
{
    for (size_t i = 0; i < RECORDS_MAX; i++)
        list[i] = turn[i % TURN];
}

static uint16_t batch_of(struct pair *pair, size_t len, struct totals *totals)
{
    return pair_batch_fitting(pair, (struct records){ list, len }, totals).refused;
}

/* Around the limit one total decides, whether the others are small, or just as large as they may be. */
static void one_near_limit(size_t len, size_t place, bool others_large)
{
    uint64_t limit = total_limit(len);
    for (int past = -1; past <= 1; past++) {
        struct totals totals = { 11, 22, 33, 44 };
        for (size_t other = 0; other < TOTALS && others_large; other++)
            *total_at(&totals, other) = limit - other;
        *total_at(&totals, place) = limit + past;
        pair_sequence("totals near their limit");
        struct pair pair = pair_of(2);
        demand(batch_of(&pair, len, &totals) == (past > 0 ? TOTAL : DONE), "the limit of a total decides");
        pair_free(&pair);
    }
}

/* Far past the limit a sum that wraps around is small again. */
static void one_at_end(size_t len, size_t place)
{
    struct totals totals = { 11, 22, 33, 44 };
    pair_sequence("totals at their end");
    struct pair pair = pair_of(1);
    *total_at(&totals, place) = UINT64_MAX;
    demand(batch_of(&pair, len, &totals) == TOTAL, "a total at its end is refused");
    demand(batch_of(&pair, 0, &totals) == DONE, "with no records no total can pass its end");
    pair_free(&pair);
}

static void all_at_end(void)
{
    struct totals totals = { UINT64_MAX, UINT64_MAX, UINT64_MAX, UINT64_MAX };
    pair_sequence("all totals at their end");
    struct pair pair = pair_of(1);
    demand(batch_of(&pair, 0, &totals) == DONE, "with no records no total can pass its end");
    demand(batch_of(&pair, 1, &totals) == TOTAL, "totals at their end are refused");
    pair_free(&pair);
}

/* One after another, until a total is past its limit: the totals that a batch leaves are those that the next one finds. */
static void until_refused(size_t place, uint64_t rise)
{
    struct totals totals = { 11, 22, 33, 44 };
    pair_sequence("batches up to the limit");
    struct pair pair = pair_of(3);
    *total_at(&totals, place) = total_limit(TURN) - 5 * rise;
    for (int i = 0; i <= 5; i++)
        demand(batch_of(&pair, TURN, &totals) == DONE, "a total up to the limit is raised");
    for (int i = 0; i < 2; i++)
        demand(batch_of(&pair, TURN, &totals) == TOTAL, "a total past its limit is refused");
    demand(batch_of(&pair, TURN - 1, &totals) == DONE, "a shorter list has a higher limit");
    pair_free(&pair);
}

static void past_borders(size_t len)
{
    pair_sequence("totals near borders");
    struct pair pair = pair_of(1);
    for (int round = 0; round < ROUNDS; round++) {
        struct totals totals = some_totals(len);
        demand(batch_of(&pair, len, &totals) == DONE, "totals below the limit are raised");
    }
    pair_free(&pair);
}

void batch_totals(void)
{
    static const uint64_t rises[TOTALS] = { 6, 3, 2, 1 };
    fill_list();
    all_at_end();
    for (size_t place = 0; place < TOTALS; place++) {
        until_refused(place, rises[place]);
        for (size_t i = 0; i < sizeof list_lengths / sizeof *list_lengths; i++) {
            one_near_limit(list_lengths[i], place, false);
            one_near_limit(list_lengths[i], place, true);
            one_at_end(list_lengths[i], place);
        }
    }
    past_borders(TURN);
    past_borders(20 * TURN);
}
