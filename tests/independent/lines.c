#include "lines.h"

#include <stdio.h>

static const unsigned arguments[OPS] = {
    [NEW] = 3, [CLEAR] = 1, [COPY] = 2, [LOAD] = 3, [STORE] = 3, [COLLECT] = 0, [START] = 1, [FINISH] = 0,
};

unsigned arguments_of(enum op op)
{
    return arguments[op];
}

/* "Each line is four decimal fields" */
static bool four_numbers(struct text line, unsigned field[FIELDS])
{
    if (commas(line) != FIELDS - 1)
        return false;
    for (size_t i = 0; i < FIELDS; i++)
        if (!number(cut(&line, ","), &field[i]))
            return false;
    return true;
}

/* "the call's number 1 to 8, then its arguments in the order above, unused ones 0" */
bool is_call(const unsigned field[FIELDS])
{
    if (field[0] < NEW || field[0] > FINISH)
        return false;
    for (size_t i = 1 + arguments[field[0]]; i < FIELDS; i++)
        if (field[i] != 0)
            return false;
    return true;
}

/* "the CSV program doesn't print it"; Q-7: "A batch takes no Q-5 table". The list goes to room that is the call's own, and
   fits wherever N does. */
struct answer call_of(struct heap *heap, const unsigned field[FIELDS])
{
    uint16_t room[CELLS_MAX];
    const struct table freed = { room, heap->kind.len };
    return call(heap, freed, field[0], field[1], field[2], field[3]);
}

/* "Any other line ... is refused 11 LINE, with 0 as its call, and does nothing" */
struct reply answer_line(struct heap *heap, struct text line)
{
    unsigned field[FIELDS];
    if (four_numbers(line, field) && is_call(field))
        return (struct reply){ field[0], call_of(heap, field) };
    return (struct reply){ 0, { .refused = LINE } };
}

/* "Every output line ends with CR LF, and its numbers have no leading zeros." */
size_t put_reply(char *to, struct reply reply)
{
    struct answer answer = reply.answer;
    return sprintf(to, "%u,%u,%u,%u,%u\r\n", reply.op, answer.refused, answer.freed, answer.queued, answer.cell);
}
