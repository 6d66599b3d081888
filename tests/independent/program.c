/* "The program" of document 01 over the independent heap. It reads standard input whole before it answers: how the input
   comes in pieces can't matter then. */
#include "input.h"
#include "lines.h"

#include <stdio.h>
#include <stdlib.h>

enum { CELLS = 256 };

void met_at_zero(size_t cell)
{
    fprintf(stderr, "stop: the count of cell %zu is met at zero\n", cell);
    exit(1);
}

static void answer_all(struct heap *heap, struct text rest)
{
    struct text line;
    char reply[REPLY_MAX + 1];
    while (next_line(&rest, &line))
        fwrite(reply, 1, put_reply(reply, answer_line(heap, line)), stdout);
}

/* "It runs one heap of 256 cells, fresh at the start" */
int main(void)
{
    static uint16_t kind[CELLS], flags[CELLS], count[CELLS], slots[SLOTS * CELLS], roots[ROOTS], queue[CELLS], control[CONTROL];
    struct heap heap = { { kind, CELLS }, { flags, CELLS }, { count, CELLS }, { slots, SLOTS * CELLS },
                         { roots, ROOTS }, { queue, CELLS }, { control, CONTROL } };
    struct text input = read_all(stdin);
    call(&heap, (struct table){ 0 }, FRESH, 0, 0, 0);
    printf("op,refused,freed,queued,cell\r\n");
    answer_all(&heap, input);
    free((char *)input.at);
    return fflush(stdout) == 0 ? 0 : 1;
}
