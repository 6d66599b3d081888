/* The lines of document 01's program: what each asks for and is answered. */
#ifndef LINES_H
#define LINES_H

#include "heap.h"
#include "split.h"

/* A line has four numbers. The longest reply has five numbers of five digits, four commas, CR and LF. */
enum { FIELDS = 4, REPLY_MAX = 31 };

/* What a line of the output says. */
struct reply {
    unsigned op;
    struct answer answer;
};

/* How many of its three arguments a call uses. */
unsigned arguments_of(enum op op);

/* Whether four numbers name a call; and the call that they name, made without a table for the freed cells. */
bool is_call(const unsigned field[FIELDS]);
struct answer call_of(struct heap *heap, const unsigned field[FIELDS]);

/* Does what a line, without its CR LF, asks for. */
struct reply answer_line(struct heap *heap, struct text line);

/* Writes a reply with its CR LF, and a NUL behind them; the length is without the NUL. */
size_t put_reply(char *to, struct reply reply);

#endif
