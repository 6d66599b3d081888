/*
 * vekszalir.h: a script heap that counts references, runs finalizers through a queue, and sweeps.
 *
 * The heap is seven tables of 16-bit numbers that you lend to each call. N, the number of cells, is the
 * length of the kind table, 1 to 1,024; the other lengths follow from it (VEK_SLOTS_LEN(n) and so on).
 *
 *     table     entries   meaning
 *     kind      N         VEK_FREE, VEK_OBJECT, VEK_STRING, VEK_BUFFER
 *     flags     N         0, VEK_FINALIZER (has a finalizer), VEK_FINALIZED (has one, and it has run)
 *     count     N         references to the cell
 *     slots     8 x N     cell c owns entries 8c to 8c+7
 *     roots     64        your references
 *     queue     N         cells that wait for their finalizer, oldest first
 *     control   2         length of the queue; the running root plus 1, or 0 for none
 *
 * A reference is 0 for empty, or the cell's number plus 1.
 *
 * What you owe: what you lend to a call, tables, lists and bytes, does not overlap, is valid for its length (a length of
 * 0 may come with a null pointer), and is written by nobody else during the call. Everything else is the heap's
 * business: any lengths, any contents and any numbers are answered, with a refusal where something is wrong.
 *
 * The library keeps no state of its own, so heaps of different threads don't meet: two threads may each make calls
 * on a heap of their own at the same time. One heap is for one call at a time.
 *
 * What you get, proved for every list of calls from a vek_fresh that is done, made one by one, in batches or as lines
 * of text, if nobody else writes the tables in between: no call frees a cell that your roots or the queue still reach;
 * after each vek_collect that is done the used cells are just the reached ones; and without a sweep the same holds
 * exactly when no unreached cells refer to each other, or one to itself, in a ring. Exactly then, too, a vek_collect
 * made next frees and queues nothing.
 *
 * A call answers four numbers. `refused` is VEK_DONE or why nothing was done; a refused call changes no entry
 * of any table and answers freed 0, queued 0, cell 0. `freed` is the number of cells that were used before
 * the call and are free after it, `queued` the number of cells that the call put into the queue, and `cell`
 * is the new cell of vek_new; vek_fresh answers 0 for all of these. Of several reasons for a refusal the
 * lowest number is given.
 *
 * Every call but vek_fresh also says which cells it freed, so that you can release what you keep beside them. You
 * lend it one more table of N entries, `freed`, which is no part of the heap: what stands there matters to nothing.
 * After a call that is done its first `freed` entries are references to the freed cells, each once, in the order in
 * which they were freed, and the rest are 0. vek_collect frees in order of cell number, a cascade first what was let
 * go of first. After a refusal the table is as before.
 */
#ifndef VEKSZALIR_H
#define VEKSZALIR_H

#include <stddef.h>
#include <stdint.h>

#ifdef __cplusplus
extern "C" {
#endif

#define VEK_VERSION "2.1.0"

/* Limits. */
#define VEK_CELLS_MAX 1024
#define VEK_RECORDS_MAX 4096
#define VEK_ROOTS 64
#define VEK_SLOTS 8
#define VEK_CONTROL 2
#define VEK_SLOTS_LEN(n) (VEK_SLOTS * (n))

/* Kinds of cells. */
#define VEK_FREE 0
#define VEK_OBJECT 1
#define VEK_STRING 2
#define VEK_BUFFER 3

/* Flags of objects. */
#define VEK_FINALIZER 1
#define VEK_FINALIZED 3

/* Why a call was refused. */
#define VEK_DONE 0
#define VEK_SIZE 1     /* N is not 1 to 1,024, or the tables' lengths don't fit N; VEK_FREED has to have N entries */
#define VEK_DAMAGED 2  /* the heap is not sound */
#define VEK_NUMBER 3   /* a root above 63, a slot above 7, a bad kind or a bad wish for a finalizer */
#define VEK_EMPTY 4    /* the root that should hold an object is empty */
#define VEK_KIND 5     /* it holds a string or buffer */
#define VEK_TAKEN 6    /* the root for vek_new or vek_start is not empty */
#define VEK_FULL 7     /* vek_new, and no cell is free */
#define VEK_BUSY 8     /* vek_start while a finalizer is running */
#define VEK_NONE 9     /* vek_start with an empty queue */
#define VEK_IDLE 10    /* vek_finish with no finalizer running */
#define VEK_LINE 11    /* a line, or a record of vek_batch, that names no call; nothing else is refused so */
#define VEK_TOTAL 12   /* vek_batch: a total could pass its end; vek_audit: no list of heaps leads to the report */
#define VEK_MANY 14    /* vek_audit: the report has a thousand heaps */

typedef struct {
    uint16_t refused, freed, queued, cell;
} vek_answer;

/* The name of a refusal for a log, "DONE" for VEK_DONE and so on; "unknown" for a number that is none. */
static inline const char *vek_refusal_name(uint16_t refused)
{
    switch (refused) {
    case VEK_DONE: return "DONE";
    case VEK_SIZE: return "SIZE";
    case VEK_DAMAGED: return "DAMAGED";
    case VEK_NUMBER: return "NUMBER";
    case VEK_EMPTY: return "EMPTY";
    case VEK_KIND: return "KIND";
    case VEK_TAKEN: return "TAKEN";
    case VEK_FULL: return "FULL";
    case VEK_BUSY: return "BUSY";
    case VEK_NONE: return "NONE";
    case VEK_IDLE: return "IDLE";
    case VEK_LINE: return "LINE";
    case VEK_TOTAL: return "TOTAL";
    case VEK_MANY: return "MANY";
    default: return "unknown";
    }
}

/* Room for a heap of n cells and its list of freed cells, and the words that lend its tables to a call, without the
   list and with it:

       static VEK_STORAGE(256) shop;
       vek_answer a = vek_fresh(VEK_LEND(shop));
       a = vek_clear(VEK_LEND_ALL(shop), 0);
       for (size_t i = 0; i < a.freed; i++)
           (the cell shop.freed[i] - 1 went)

   Tables that lie elsewhere are lent one by one, each with its length. */
#define VEK_STORAGE(n)                                                                               \
    struct {                                                                                         \
        uint16_t kind[n], flags[n], count[n], slots[VEK_SLOTS_LEN(n)], roots[VEK_ROOTS], queue[n],   \
            control[VEK_CONTROL], freed[n];                                                          \
    }
#define VEK_LEND_TABLE(table) (table), sizeof(table) / sizeof((table)[0])
#define VEK_LEND(heap)                                                                               \
    VEK_LEND_TABLE((heap).kind), VEK_LEND_TABLE((heap).flags), VEK_LEND_TABLE((heap).count),         \
        VEK_LEND_TABLE((heap).slots), VEK_LEND_TABLE((heap).roots), VEK_LEND_TABLE((heap).queue),    \
        VEK_LEND_TABLE((heap).control)
#define VEK_LEND_ALL(heap) VEK_LEND(heap), VEK_LEND_TABLE((heap).freed)

/* Seven tables with their lengths, as every call takes them; and the list of freed cells. */
#define VEK_TABLES                                                                                   \
    uint16_t *kind, size_t kind_len, uint16_t *flags, size_t flags_len, uint16_t *count,             \
        size_t count_len, uint16_t *slots, size_t slots_len, uint16_t *roots, size_t roots_len,      \
        uint16_t *queue, size_t queue_len, uint16_t *control, size_t control_len
#define VEK_FREED uint16_t *freed, size_t freed_len

/* Every entry becomes 0, whatever stood there. Refused: SIZE. */
vek_answer vek_fresh(VEK_TABLES);

/* The lowest free cell, with count 1, is placed in an empty root. `finalizer` is 1 for an object that wants its
   finalizer run, else 0. Refused: SIZE, DAMAGED, NUMBER, TAKEN, FULL. */
vek_answer vek_new(VEK_TABLES, VEK_FREED, size_t root, size_t new_kind, size_t finalizer);

/* The root is emptied; an empty root is no error. Refused: SIZE, DAMAGED, NUMBER. */
vek_answer vek_clear(VEK_TABLES, VEK_FREED, size_t root);

/* One root takes what another holds, which may be nothing. Refused: SIZE, DAMAGED, NUMBER. */
vek_answer vek_copy(VEK_TABLES, VEK_FREED, size_t to_root, size_t from_root);

/* A root takes what a slot of the object in another root holds. Refused: SIZE, DAMAGED, NUMBER, EMPTY, KIND. */
vek_answer vek_load(VEK_TABLES, VEK_FREED, size_t to_root, size_t object_root, size_t slot);

/* A slot of the object in a root takes what another root holds. Refused: SIZE, DAMAGED, NUMBER, EMPTY, KIND. */
vek_answer vek_store(VEK_TABLES, VEK_FREED, size_t object_root, size_t slot, size_t from_root);

/* A sweep: objects that neither roots nor queue reach and whose finalizer is still to run join the queue, and all
   that they reach stays; every other cell that is not reached is freed. If the queue was empty when the call began, a
   finalized object that stays was rescued, and its finalizer may run again; if not, perhaps queued objects alone reach
   it, so it stays finalized and a later sweep decides. Allowed while a finalizer runs. Refused: SIZE, DAMAGED. */
vek_answer vek_collect(VEK_TABLES, VEK_FREED);

/* The queue's head is placed in an empty root for its finalizer, which you then run. The queue stays.
   Refused: SIZE, DAMAGED, NUMBER, TAKEN, BUSY, NONE. */
vek_answer vek_start(VEK_TABLES, VEK_FREED, size_t root);

/* The finalizer has run: the head leaves the queue and is finalized, and the running root is emptied. What the root
   held comes off first, and then the queue's own reference, so that the cells freed by the first stand first in the list.
   Refused: SIZE, DAMAGED, IDLE. */
vek_answer vek_finish(VEK_TABLES, VEK_FREED);

/* A whole basket in one call: the heap is checked once, and not for each call.

   A record is a call as four numbers: the call's own, and its arguments in the order above, unused ones 0. You lend a
   list of them, at most VEK_RECORDS_MAX, a list of as many answers, and running totals over any number of batches:

       static const vek_record basket[] = {
           {VEK_CALL_NEW, 0, VEK_OBJECT, 0}, {VEK_CALL_NEW, 1, VEK_STRING, 0}, {VEK_CALL_STORE, 0, 3, 1}, {VEK_CALL_CLEAR, 1, 0, 0},
       };
       vek_answer answers[4];
       vek_totals totals = {0, 0, 0, 0};
       vek_answer a = vek_batch(VEK_LEND(shop), basket, 4, answers, 4, &totals);
*/
#define VEK_CALL_NEW 1
#define VEK_CALL_CLEAR 2
#define VEK_CALL_COPY 3
#define VEK_CALL_LOAD 4
#define VEK_CALL_STORE 5
#define VEK_CALL_COLLECT 6
#define VEK_CALL_START 7
#define VEK_CALL_FINISH 8

typedef struct {
    uint16_t call, first, second, third;
} vek_record;

typedef struct {
    uint64_t done, refused, freed, queued;
} vek_totals;

/* Tables and answers become those of the single calls made one after another. A record that is refused does not stop
   the batch; one that names no call is answered VEK_LINE and does nothing. The totals rise by the calls done, the calls
   refused, VEK_LINE among them, and the cells freed and queued. Takes no table for the freed cells, and the answers
   don't name them. The batch itself answers as vek_fresh does.
   Refused VEK_SIZE where the tables don't fit, or the lists differ in length or are longer than VEK_RECORDS_MAX;
   VEK_DAMAGED; and VEK_TOTAL exactly if one of the four totals could pass the end of its 64 bits by 1,024 times the
   list's length. A batch that is refused writes nothing: no table, no answer, no total. An empty list is done.
   `totals` is never null. */
vek_answer vek_batch(VEK_TABLES, const vek_record *records, size_t records_len, vek_answer *answers, size_t answers_len,
                     vek_totals *totals);

/* Calls as lines of text, in the bits in which they arrive.

   A line is four decimal numbers with commas between them, 1 to 5 digits each and at most 65,535: the call's number,
   1 vek_new to 8 vek_finish in the order above, then its arguments, unused ones 0. CR LF ends a line; the last one may
   lack it, and a CR alone does not stand for it. Each line is answered by a line: the call's number, refused, freed,
   queued, cell. Any other line, one over 64 bytes among them, does nothing and is answered 0,11,0,0,0. On tables that
   don't fit or are damaged each line that names a call is refused as that call would be. Lines take no table for the
   freed cells, and their answers don't name them.

   A reader is what is kept of a line that has not ended: seven numbers, however long the line is. VEK_READER_START, all
   zeros, holds nothing. What other numbers mean is the library's business; any are answered.

       vek_reader reader = VEK_READER_START;
       while (there are bytes) {
           vek_progress p = vek_take(VEK_LEND(shop), reader, bytes, bytes_len, out, sizeof out);
           reader = p.reader;
           (send the first p.written bytes of out; the bytes after the first p.taken are still to be handed in)
       }
       vek_progress p = vek_end(VEK_LEND(shop), reader, out, sizeof out);
       (send the first p.written bytes of out)

   However the bytes are cut, what is sent in all is what the whole input is answered, if nothing else is done to the
   heap in between. */
typedef struct {
    uint16_t cr, field, digits, a, b, c, d;
} vek_reader;

#define VEK_READER_START {0, 0, 0, 0, 0, 0, 0}

typedef struct {
    vek_reader reader;
    size_t taken, written;
} vek_progress;

/* The longest line of answer, with its CR LF. */
#define VEK_ANSWER_LEN 31

/* Takes bytes one by one while `out` has room for a longest answer behind what is written, and answers each line that
   ends. Says the reader to go on with, how many bytes were taken, and how many were written; the bytes of `out` behind
   them stay as they were, and no NUL is written. With room for one answer at least one byte is taken, if there is one;
   with room for an answer to each byte, all are; with less room than for one, nothing ever is. */
vek_progress vek_take(VEK_TABLES, vek_reader reader, const uint8_t *bytes, size_t bytes_len, uint8_t *out, size_t out_len);

/* The input has ended. A line that is held is answered, and the reader is VEK_READER_START again; what is taken then is
   a new input. But where a line is held and `out` has no room for a longest answer, nothing is done, and the reader
   comes back as it was, not all zeros: end again, with more room. `taken` is 0. */
vek_progress vek_end(VEK_TABLES, vek_reader reader, uint8_t *out, size_t out_len);

/* An audit of heaps, sound or not: how far each stored count is off.

   A cell's difference is its stored count minus the references to it: every entry of roots, slots and queue that holds
   it counts, the slots of free cells and the entries past the queue's length too. It is below zero where the stored
   count is too low. Free cells have one as well. A reference above N names no cell: it is lost, and counts for none.
   In a sound heap every difference is 0 and nothing is lost.

   A row has the cells below, at and above zero, the sum of their differences, the lost references, and the heaps that
   were refused SIZE; a heap's own has 0 or 1 of these. A report has the number of heaps that it has taken and their
   rows added up. VEK_REPORT_START, all zeros, has none:

       vek_report report = VEK_REPORT_START;
       int32_t differences[256];
       for (each heap) {
           vek_audited a = vek_audit(VEK_LEND(heap), differences, 256, report);
           report = a.report;
           (a.heap is the heap's row; unless a.refused, differences[c] is that of cell c)
       } */
typedef struct {
    uint64_t below, at, above;
    int64_t sum;
    uint64_t lost, size;
} vek_row;

typedef struct {
    uint64_t heaps;
    vek_row totals;
} vek_report;

typedef struct {
    uint16_t refused;
    vek_row heap;
    vek_report report;
} vek_audited;

#define VEK_REPORT_START {0, {0, 0, 0, 0, 0, 0}}

/* A report takes so many heaps, those refused SIZE counted. */
#define VEK_HEAPS_MAX 1000

/* Audits a report's next heap. The heap's tables are only read; the entries of `differences`, which has to be N long
   like the heap's own tables, become the cells' differences. Refused, the first that holds:
   MANY    the report has a thousand heaps already;
   TOTAL   no list of heaps leads to the report, which never happens to one that started empty and that nobody else wrote;
   SIZE    the lengths don't fit: the heap's row is 1 heap refused SIZE and nothing else, and the report takes it so.
   MANY and TOTAL change nothing: the heap's row is all zeros, and the report comes back as it was. No refusal writes to
   `differences`. */
vek_audited vek_audit(VEK_TABLES, int32_t *differences, size_t differences_len, vek_report report);

#ifdef __cplusplus
}
#endif

#endif
