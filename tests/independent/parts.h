/* What the files of the independent heap share among themselves, and with the suites of single steps. */
#ifndef PARTS_H
#define PARTS_H

#include "heap.h"

#include <stdbool.h>

/* A call as it was asked for. */
struct request {
    struct heap *heap;
    struct table freed;
    enum op op;
    size_t arg[3];
};

/* A call under way. A cell joins the work list when its count reaches zero, hence once at most. It joins the list of freed
   cells, which holds references, when it becomes all zeros. */
struct run {
    struct heap *heap;
    struct answer answer;
    uint16_t work[CELLS_MAX];
    size_t joined, served;
    uint16_t freed[CELLS_MAX];
    size_t listed;
};

/* fit.c: whether the lengths are those of a heap. */
bool lengths_fit(const struct heap *heap);

/* sound.c: the six rules of "A sound heap". */
bool sound(const struct heap *heap);

/* refusal.c: the lowest refusal number whose case is given, or DONE. */
enum refusal refusal(const struct request *request);

/* cell.c: single cells, and the freeing step, which says which cell it freed. */
size_t lowest_free(const struct heap *heap);
uint16_t *slot_of(const struct heap *heap, size_t cell, size_t slot);
uint16_t free_cell(struct heap *heap, size_t cell);
void free_and_list(struct run *run, size_t cell);

/* count.c: "Taking off" and its opposite. */
void incref(struct heap *heap, uint16_t ref);
void lower(struct heap *heap, uint16_t ref);
void enqueue(struct run *run, size_t cell);
void take_off(struct run *run, uint16_t ref);

/* collect.c: "Collecting". */
void collect(struct run *run);

/* heap.c: one of the eight calls, on tables and numbers for which no refusal is asked. */
struct answer perform(const struct request *request);

#endif
