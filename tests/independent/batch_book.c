/* The marked examples, each as one batch, and as several: one for the calls between two facts. */
#include "suites.h"

#include "batching.h"
#include "book.h"

/* Calls that go into one batch, with the answers that the book says. */
struct passage {
    struct record records[BOOK_STEPS];
    struct answer wants[BOOK_STEPS];
    size_t len;
};

static void add_call(struct passage *passage, const struct book_step *step)
{
    const size_t *arg = step->arg;
    passage->wants[passage->len] = step->want;
    passage->records[passage->len++] = (struct record){ step->op, arg[0], arg[1], arg[2] };
}

static void play_passage(struct pair *pair, const struct passage *passage, struct totals *totals)
{
    struct answer answers[BOOK_STEPS];
    pair_batch(pair, (struct records){ passage->records, passage->len }, (struct answers){ answers, passage->len }, totals);
    for (size_t i = 0; i < passage->len; i++)
        demand(same_answer(answers[i], passage->wants[i]), "the book says otherwise");
}

/* A fact is looked at where a batch ends before it. */
static void play(const struct book_example *example, bool cut)
{
    struct passage passage = { .len = 0 };
    struct totals totals = { 0 };
    pair_sequence(example->name);
    struct pair pair = pair_of(example->cells);
    pair_call(&pair, FRESH, 0, 0, 0);
    for (const struct book_step *step = example->steps; step->op != FRESH; step++)
        if (step->op != FACT) {
            add_call(&passage, step);
        } else if (cut) {
            play_passage(&pair, &passage, &totals);
            passage.len = 0;
            demand(book_fact(&pair, step), "the book says otherwise");
        }
    play_passage(&pair, &passage, &totals);
    pair_free(&pair);
}

void batch_book(void)
{
    for (size_t i = 0; i < book_count; i++) {
        play(&book_examples[i], false);
        play(&book_examples[i], true);
    }
}
