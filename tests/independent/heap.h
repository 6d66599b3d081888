/* The script heap of document 01, with of document 02, written from these documents alone and as
   plainly as they allow, to be compared with the heap under test. Speed is no aim here: each rule stands in a function of its
   own. */
#ifndef HEAP_H
#define HEAP_H

#include <stddef.h>
#include <stdint.h>

enum { CELLS_MAX = 1024, ROOTS = 64, SLOTS = 8, CONTROL = 2 };

enum kind { FREE, OBJECT, STRING, BUFFER };

enum flag { FINALIZER = 1, FINALISED = 2 };

/* The two entries of the control table. */
enum control { LENGTH, RUNNING };

/* The eight calls have the numbers of document 01. */
enum op { FRESH, NEW, CLEAR, COPY, LOAD, STORE, COLLECT, START, FINISH, OPS };

enum refusal { DONE, SIZE, DAMAGED, NUMBER, EMPTY, KIND, TAKEN, FULL, BUSY, NONE, IDLE, REFUSALS };

/* What no single call is refused with: lines, batches and audits are. */
enum { LINE = 11, TOTAL = 12, MANY = 14 };

struct table {
    uint16_t *at;
    size_t len;
};

struct heap {
    struct table kind, flags, count, slots, roots, queue, control;
};

struct answer {
    uint16_t refused, freed, queued, cell;
};

/* Makes the call `op` with its arguments in document 01's order, the unused ones being anything. Any lengths, any
   entries and any numbers are answered. `freed` is the table that Q-5 asks for, which is no part of the heap; FRESH takes
   none and looks at none. */
struct answer call(struct heap *heap, struct table freed, enum op op, size_t a, size_t b, size_t c);

/* "from a sound heap no taking-off, at any point of a cascade, a sweep or a FINISH, meets a zero count". Where one does,
   the heap calls this, which is defined by whoever runs it: the cell is reported, and the run ends with a failure. */
_Noreturn void met_at_zero(size_t cell);

#endif
