/* The same heap in C: the same rules, the same full check on every call, one for a whole batch, the same tables. */
#include "heap.h"

#include <string.h>

enum { DEPTH = 16 };
enum { UNMARKED, MARKED, NOTED };

/* A heap whose lengths have been checked, and the room for the list of freed cells. */
typedef struct {
    uint16_t *kind, *flags, *count, *slots, *roots, *queue, *control, *freed;
    size_t n;
} heap;

static vek_answer refuse(uint16_t why) { return (vek_answer){why, 0, 0, 0}; }

static inline vek_answer done(size_t freed, unsigned queued, size_t cell) { return (vek_answer){0, freed, queued, cell}; }

int c_fits(VEK_TABLES)
{
    (void)kind, (void)flags, (void)count, (void)slots, (void)roots, (void)queue, (void)control;
    return kind_len >= 1 && kind_len <= VEK_CELLS_MAX && flags_len == kind_len && count_len == kind_len &&
           slots_len == VEK_SLOTS * kind_len && roots_len == VEK_ROOTS && queue_len == kind_len && control_len == 2;
}

/* Are four references empty? Tested as one word. */
static inline int empty(const uint16_t *four)
{
    uint64_t word;
    memcpy(&word, four, sizeof word);
    return word == 0;
}

/* Tallies four references; whether each is empty or names a cell. Entry 0 of the tally takes the empty ones. */
static inline int tally_four(uint16_t *tally, const uint16_t *four, size_t n)
{
    if (empty(four))
        return 1;
#pragma GCC unroll 4
    for (size_t i = 0; i < 4; i++) {
        size_t r = four[i];
        if (r > n)
            return 0;
        tally[r]++;
    }
    return 1;
}

/* The entries in use name distinct objects with flags 1, and the others are 0. */
static int queue_ok(const heap *h, uint16_t *tally, size_t length)
{
    for (size_t i = 0; i < length; i++) {
        size_t r = h->queue[i];
        if (r == 0 || r > h->n || h->kind[r - 1] != VEK_OBJECT || h->flags[r - 1] != VEK_FINALIZER || tally[r])
            return 0;
        tally[r] = 1;
    }
    for (size_t i = length; i < h->n; i++)
        if (h->queue[i])
            return 0;
    return 1;
}

/* Kind, flags and count go together, and only objects use slots. */
static inline int cell_ok(const heap *h, uint16_t *tally, size_t c)
{
    const uint16_t *s = h->slots + VEK_SLOTS * c;
    unsigned k = h->kind[c], f = h->flags[c], m = h->count[c];
    if (k == VEK_OBJECT)
        return f <= VEK_FINALIZED && f != 2 && m && tally_four(tally, s, h->n) && tally_four(tally, s + 4, h->n);
    return k <= VEK_BUFFER && !f && (m != 0) == (k != 0) && empty(s) && empty(s + 4);
}

/* One pass over the cells, and one over the counts. */
static int sound(const heap *h)
{
    size_t n = h->n, length = h->control[0], running = h->control[1];
    uint16_t tally[VEK_CELLS_MAX + 1];
    memset(tally, 0, (n + 1) * sizeof tally[0]);
    if (length > n || (running && (running > VEK_ROOTS || length == 0)) || !queue_ok(h, tally, length))
        return 0;
    for (size_t i = 0; i < VEK_ROOTS; i += 4)
        if (!tally_four(tally, h->roots + i, n))
            return 0;
    for (size_t c = 0; c < n; c++)
        if (!cell_ok(h, tally, c))
            return 0;
    return memcmp(tally + 1, h->count, n * sizeof *tally) == 0;
}

/* ---- taking off */

/* The lent list of freed cells is the work list: cells are freed in the order in which they join it. */
typedef struct {
    uint16_t *work;
    size_t tail;
} worklist;

static void decref(heap *h, worklist *w, unsigned r)
{
    if (!r)
        return;
    size_t c = r - 1;
    unsigned n = h->count[c];
    if (n > 1) {
        h->count[c] = n - 1;
        return;
    }
    if (h->flags[c] == 1 && h->kind[c] == 1) {
        h->queue[h->control[0]++] = r;
        return;
    }
    h->count[c] = 0;
    w->work[w->tail++] = r;
}

static inline void empty_slots(uint16_t *s) { memset(s, 0, VEK_SLOTS * sizeof *s); }

/* What a freed cell has besides slots. Only objects use those: where cells are freed, theirs are emptied. */
static inline void zero_entries(heap *h, size_t c)
{
    h->kind[c] = 0;
    h->flags[c] = 0;
    h->count[c] = 0;
}

/* A full take-off, by a call that has listed so many freed cells; how many it has listed then. */
static size_t release(heap *h, size_t listed, unsigned r)
{
    if (!r)
        return listed;
    if (h->count[r - 1] > 1) {
        h->count[r - 1]--;
        return listed;
    }
    worklist w = {h->freed, listed};
    decref(h, &w, r);
    size_t head = listed;
    for (; head < w.tail; head++) {
        size_t c = w.work[head] - 1u;
        uint16_t *s = h->slots + VEK_SLOTS * c;
        if (h->kind[c] == VEK_OBJECT) {
            for (size_t i = 0; i < VEK_SLOTS; i++)
                decref(h, &w, s[i]);
            empty_slots(s);
        }
        zero_entries(h, c);
    }
    return head;
}

/* The last reference to a cell comes off, at the end of a call. */
static vek_answer take_off(heap *h, unsigned r)
{
    unsigned queued = h->control[0];
    size_t freed = release(h, 0, r);
    return done(freed, h->control[0] - queued, 0);
}

/* Most references that are written over are none, or not the last: this much is a part of each call that writes one. */
static inline vek_answer write_ref(heap *h, uint16_t *place, unsigned r)
{
    unsigned old = *place;
    if (r)
        h->count[r - 1]++;
    *place = r;
    if (!old)
        return done(0, 0, 0);
    if (h->count[old - 1] > 1) {
        h->count[old - 1]--;
        return done(0, 0, 0);
    }
    return take_off(h, old);
}

/* ---- collecting */

static void mark_cell(const uint16_t *slots, uint8_t *marks, size_t c, unsigned depth)
{
    if (depth == 0) {
        marks[c] = NOTED;
        return;
    }
    marks[c] = MARKED;
    const uint16_t *s = slots + VEK_SLOTS * c;
    for (size_t i = 0; i < VEK_SLOTS; i++)
        if (s[i] && marks[s[i] - 1] != MARKED)
            mark_cell(slots, marks, s[i] - 1, depth - 1);
}

static void mark_refs(const uint16_t *slots, uint8_t *marks, const uint16_t *refs, size_t k)
{
    for (size_t i = 0; i < k; i++)
        if (refs[i] && marks[refs[i] - 1] != MARKED)
            mark_cell(slots, marks, refs[i] - 1, DEPTH);
}

static size_t next_noted(const uint8_t *marks, size_t from, size_t n)
{
    for (size_t i = from; i < n; i++)
        if (marks[i] == NOTED)
            return i;
    for (size_t i = 0; i < from; i++)
        if (marks[i] == NOTED)
            return i;
    return n;
}

static void serve_noted(const uint16_t *slots, uint8_t *marks, size_t n)
{
    for (size_t c = next_noted(marks, 0, n); c < n; c = next_noted(marks, c, n))
        mark_cell(slots, marks, c, DEPTH);
}

static vek_answer collect(heap *h)
{
    uint8_t marks[VEK_CELLS_MAX];
    size_t n = h->n, old = h->control[0];
    memset(marks, UNMARKED, sizeof marks);
    mark_refs(h->slots, marks, h->roots, VEK_ROOTS);
    mark_refs(h->slots, marks, h->queue, old);
    serve_noted(h->slots, marks, n);
    for (size_t c = 0; c < n; c++)
        if (marks[c] == UNMARKED && h->kind[c] == 1 && h->flags[c] == 1) {
            h->queue[h->control[0]++] = c + 1;
            h->count[c]++;
        }
    size_t all = h->control[0];
    mark_refs(h->slots, marks, h->queue + old, all - old);
    serve_noted(h->slots, marks, n);
    for (size_t c = 0; c < n; c++)
        if (marks[c] == UNMARKED && h->kind[c] == VEK_OBJECT) {
            const uint16_t *s = h->slots + VEK_SLOTS * c;
            for (size_t i = 0; i < VEK_SLOTS; i++)
                if (s[i])
                    h->count[s[i] - 1]--;
        }
    size_t freed = 0;
    for (size_t c = 0; c < n; c++)
        if (marks[c] == UNMARKED && h->kind[c]) {
            if (h->kind[c] == VEK_OBJECT)
                empty_slots(h->slots + VEK_SLOTS * c);
            zero_entries(h, c);
            h->freed[freed++] = c + 1;
        }
    if (old == 0)
        for (size_t c = 0; c < n; c++)
            if (marks[c] != UNMARKED && h->flags[c] == 3)
                h->flags[c] = 1;
    return done(freed, all - old, 0);
}

/* ---- the calls on a sound heap: what a call frees it lists, and behind the list stands anything */

static inline vek_answer new(heap *h, size_t root, size_t new_kind, size_t finalizer)
{
    if (root >= VEK_ROOTS || new_kind < 1 || new_kind > 3 || finalizer > 1 || (finalizer == 1 && new_kind != 1))
        return refuse(VEK_NUMBER);
    if (h->roots[root])
        return refuse(VEK_TAKEN);
    size_t c = 0;
    while (c < h->n && h->kind[c])
        c++;
    if (c == h->n)
        return refuse(VEK_FULL);
    h->kind[c] = new_kind;
    h->flags[c] = finalizer;
    h->count[c] = 1;
    h->roots[root] = c + 1;
    return done(0, 0, c);
}

static inline vek_answer clear(heap *h, size_t root)
{
    if (root >= VEK_ROOTS)
        return refuse(VEK_NUMBER);
    return write_ref(h, h->roots + root, 0);
}

static inline vek_answer copy(heap *h, size_t to, size_t from)
{
    if (to >= VEK_ROOTS || from >= VEK_ROOTS)
        return refuse(VEK_NUMBER);
    return write_ref(h, h->roots + to, h->roots[from]);
}

/* Why a reference names no object, or VEK_DONE. */
static inline unsigned no_object(const heap *h, size_t r)
{
    return !r ? VEK_EMPTY : h->kind[r - 1] != VEK_OBJECT ? VEK_KIND : VEK_DONE;
}

static inline vek_answer load(heap *h, size_t to, size_t object, size_t slot)
{
    if (to >= VEK_ROOTS || object >= VEK_ROOTS || slot >= VEK_SLOTS)
        return refuse(VEK_NUMBER);
    size_t r = h->roots[object];
    unsigned why = no_object(h, r);
    if (why)
        return refuse(why);
    return write_ref(h, h->roots + to, h->slots[VEK_SLOTS * (r - 1) + slot]);
}

static inline vek_answer store(heap *h, size_t object, size_t slot, size_t from)
{
    if (object >= VEK_ROOTS || slot >= VEK_SLOTS || from >= VEK_ROOTS)
        return refuse(VEK_NUMBER);
    size_t r = h->roots[object];
    unsigned why = no_object(h, r);
    if (why)
        return refuse(why);
    return write_ref(h, h->slots + VEK_SLOTS * (r - 1) + slot, h->roots[from]);
}

static inline vek_answer start(heap *h, size_t root)
{
    if (root >= VEK_ROOTS)
        return refuse(VEK_NUMBER);
    if (h->roots[root])
        return refuse(VEK_TAKEN);
    if (h->control[1])
        return refuse(VEK_BUSY);
    if (!h->control[0])
        return refuse(VEK_NONE);
    unsigned head = h->queue[0];
    h->count[head - 1]++;
    h->roots[root] = head;
    h->control[1] = root + 1;
    return done(0, 0, 0);
}

static inline vek_answer finish(heap *h)
{
    if (!h->control[1])
        return refuse(VEK_IDLE);
    size_t root = h->control[1] - 1, len = h->control[0];
    unsigned head = h->queue[0], old = h->roots[root];
    memmove(h->queue, h->queue + 1, (len - 1) * sizeof *h->queue);
    h->queue[len - 1] = 0;
    h->control[0] = len - 1;
    h->control[1] = 0;
    h->flags[head - 1] = VEK_FINALIZED;
    h->roots[root] = 0;
    size_t listed = release(h, release(h, 0, old), head);
    return done(listed, h->control[0] - (len - 1), 0);
}

/* ---- the calls on any tables */

#define FITS                                                                                         \
    c_fits(kind, kind_len, flags, flags_len, count, count_len, slots, slots_len, roots, roots_len,   \
           queue, queue_len, control, control_len)

#define SOUND_HEAP                                                                                   \
    heap h = {kind, flags, count, slots, roots, queue, control, freed, kind_len};                    \
    if (!FITS || freed_len != kind_len)                                                              \
        return refuse(VEK_SIZE);                                                                     \
    if (!sound(&h))                                                                                  \
        return refuse(VEK_DAMAGED);

/* Behind the list of a call done the table becomes 0. */
static inline vek_answer listed(const heap *h, vek_answer a)
{
    if (!a.refused)
        memset(h->freed + a.freed, 0, (h->n - a.freed) * sizeof *h->freed);
    return a;
}

vek_answer c_fresh(VEK_TABLES)
{
    if (!FITS)
        return refuse(VEK_SIZE);
    memset(kind, 0, kind_len * sizeof *kind);
    memset(flags, 0, flags_len * sizeof *flags);
    memset(count, 0, count_len * sizeof *count);
    memset(slots, 0, slots_len * sizeof *slots);
    memset(roots, 0, roots_len * sizeof *roots);
    memset(queue, 0, queue_len * sizeof *queue);
    memset(control, 0, control_len * sizeof *control);
    return (vek_answer){0, 0, 0, 0};
}

vek_answer c_new(VEK_TABLES, VEK_FREED, size_t root, size_t new_kind, size_t finalizer)
{
    SOUND_HEAP
    return listed(&h, new(&h, root, new_kind, finalizer));
}

vek_answer c_clear(VEK_TABLES, VEK_FREED, size_t root)
{
    SOUND_HEAP
    return listed(&h, clear(&h, root));
}

vek_answer c_copy(VEK_TABLES, VEK_FREED, size_t to, size_t from)
{
    SOUND_HEAP
    return listed(&h, copy(&h, to, from));
}

vek_answer c_load(VEK_TABLES, VEK_FREED, size_t to, size_t object, size_t slot)
{
    SOUND_HEAP
    return listed(&h, load(&h, to, object, slot));
}

vek_answer c_store(VEK_TABLES, VEK_FREED, size_t object, size_t slot, size_t from)
{
    SOUND_HEAP
    return listed(&h, store(&h, object, slot, from));
}

vek_answer c_collect(VEK_TABLES, VEK_FREED)
{
    SOUND_HEAP
    return listed(&h, collect(&h));
}

vek_answer c_start(VEK_TABLES, VEK_FREED, size_t root)
{
    SOUND_HEAP
    return listed(&h, start(&h, root));
}

vek_answer c_finish(VEK_TABLES, VEK_FREED)
{
    SOUND_HEAP
    return listed(&h, finish(&h));
}

/* ---- a batch */

/* What a record asks for. Whether its unused numbers are 0 is asked where it is known which they are. */
static inline vek_answer obey(heap *h, vek_record r)
{
    unsigned a = r.first, b = r.second, c = r.third;
    switch (r.call) {
    case 1: return new(h, a, b, c);
    case 2: return b | c ? refuse(VEK_LINE) : clear(h, a);
    case 3: return c ? refuse(VEK_LINE) : copy(h, a, b);
    case 4: return load(h, a, b, c);
    case 5: return store(h, a, b, c);
    case 6: return a | b | c ? refuse(VEK_LINE) : collect(h);
    case 7: return b | c ? refuse(VEK_LINE) : start(h, a);
    case 8: return a | b | c ? refuse(VEK_LINE) : finish(h);
    default: return refuse(VEK_LINE);
    }
}

/* Could a total pass its end? */
static int ends(uint64_t total, size_t records) { return total > UINT64_MAX - (uint64_t)VEK_CELLS_MAX * records; }

static int some_ends(const vek_totals *t, size_t records)
{
    return ends(t->done, records) || ends(t->refused, records) || ends(t->freed, records) || ends(t->queued, records);
}

/* The heap is checked once. No list of freed cells is asked for, so that the work list of a take-off stands here. */
vek_answer c_batch(VEK_TABLES, const vek_record *records, size_t records_len, vek_answer *answers, size_t answers_len, vek_totals *totals)
{
    uint16_t work[VEK_CELLS_MAX];
    heap h = {kind, flags, count, slots, roots, queue, control, work, kind_len};
    if (!FITS || records_len != answers_len || records_len > VEK_RECORDS_MAX)
        return refuse(VEK_SIZE);
    if (!sound(&h))
        return refuse(VEK_DAMAGED);
    if (some_ends(totals, records_len))
        return refuse(VEK_TOTAL);
    vek_totals t = *totals;
    for (size_t i = 0; i < records_len; i++) {
        vek_answer a = obey(&h, records[i]);
        answers[i] = a;
        if (a.refused) {
            t.refused++;
            continue;
        }
        t.done++;
        t.freed += a.freed;
        t.queued += a.queued;
    }
    *totals = t;
    return (vek_answer){0, 0, 0, 0};
}
