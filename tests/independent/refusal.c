/* "Refusal numbers": each reason is a function of the request. Those after SIZE read the tables, and KIND follows a
   reference too; none of them relies on NUMBER to have been asked for. */
#include "parts.h"

enum argument { UNUSED, ROOT, SLOT, NEW_KIND, WISH };

static const enum argument shape[OPS][3] = {
    [NEW] = { ROOT, NEW_KIND, WISH },
    [CLEAR] = { ROOT },
    [COPY] = { ROOT, ROOT },
    [LOAD] = { ROOT, ROOT, SLOT },
    [STORE] = { ROOT, SLOT, ROOT },
    [START] = { ROOT },
};

/* "each call except FRESH takes one more lent table of N entries, else SIZE" */
static bool list_misfits(const struct request *request)
{
    return request->op != FRESH && request->freed.len != request->heap->kind.len;
}

static bool is_size(const struct request *request)
{
    return !lengths_fit(request->heap) || list_misfits(request);
}

/* "FRESH gives only SIZE" */
static bool is_damaged(const struct request *request)
{
    return request->op != FRESH && !sound(request->heap);
}

static bool fits(enum argument argument, size_t number)
{
    switch (argument) {
    case ROOT:
        return number < ROOTS;
    case SLOT:
        return number < SLOTS;
    case NEW_KIND:
        return OBJECT <= number && number <= BUFFER;
    case WISH:
        return number <= 1;
    default:
        return true;
    }
}

/* "a root above 63, a slot above 7, a kind not 1 to 3, a finalizer wish above 1, or 1 for a non-object" */
static bool is_number(const struct request *request)
{
    const size_t *arg = request->arg;
    for (size_t i = 0; i < 3; i++)
        if (!fits(shape[request->op][i], arg[i]))
            return true;
    return request->op == NEW && arg[1] != OBJECT && arg[2] == 1;
}

/* What a root holds; a number above 63 is no root and holds nothing. */
static uint16_t held(const struct request *request, size_t root)
{
    return root < ROOTS ? request->heap->roots.at[root] : 0;
}

static bool wants_object(const struct request *request)
{
    return request->op == LOAD || request->op == STORE;
}

/* What the root holds "that should hold an object". */
static uint16_t object(const struct request *request)
{
    return held(request, request->arg[request->op == LOAD ? 1 : 0]);
}

/* "the root that should hold an object is empty" */
static bool is_empty(const struct request *request)
{
    return wants_object(request) && object(request) == 0;
}

/* "it holds a string or buffer" */
static bool is_kind(const struct request *request)
{
    uint16_t ref = object(request);
    return wants_object(request) && ref != 0 && request->heap->kind.at[ref - 1] != OBJECT;
}

/* "the root for NEW or START is not empty" */
static bool is_taken(const struct request *request)
{
    bool wants_empty = request->op == NEW || request->op == START;
    return wants_empty && held(request, request->arg[0]) != 0;
}

/* "NEW, and no cell is free" */
static bool is_full(const struct request *request)
{
    return request->op == NEW && lowest_free(request->heap) == request->heap->kind.len;
}

/* "START while one is running" */
static bool is_busy(const struct request *request)
{
    return request->op == START && request->heap->control.at[RUNNING] != 0;
}

/* "START with an empty queue" */
static bool is_none(const struct request *request)
{
    return request->op == START && request->heap->control.at[LENGTH] == 0;
}

/* "FINISH with none running" */
static bool is_idle(const struct request *request)
{
    return request->op == FINISH && request->heap->control.at[RUNNING] == 0;
}

static const struct {
    enum refusal number;
    bool (*given)(const struct request *);
} reasons[] = {
    { SIZE, is_size },
    { DAMAGED, is_damaged },
    { NUMBER, is_number },
    { EMPTY, is_empty },
    { KIND, is_kind },
    { TAKEN, is_taken },
    { FULL, is_full },
    { BUSY, is_busy },
    { NONE, is_none },
    { IDLE, is_idle },
};

/* "Several at once: the lowest number." */
enum refusal refusal(const struct request *request)
{
    for (size_t i = 0; i < sizeof reasons / sizeof *reasons; i++)
        if (reasons[i].given(request))
            return reasons[i].number;
    return DONE;
}
