#include "audit_coverage.h"

#include "met.h"
#include "parts.h"

#include <stdio.h>

static const char *const names[SITUATIONS] = {
    [AUDIT_DONE] = "an audit that is done",
    [AUDIT_SIZE] = "an audit refused SIZE",
    [AUDIT_TOTAL] = "an audit refused TOTAL",
    [AUDIT_MANY] = "an audit refused MANY",
    [AUDIT_OF_SOUND] = "an audit of a sound heap",
    [AUDIT_OF_DAMAGED] = "an audit of a damaged heap",
    [SMALLEST_HEAP] = "an audit of one cell",
    [LARGEST_HEAP] = "an audit of 1,024 cells",
    [CELL_BELOW] = "a heap with a cell below zero",
    [CELL_AT] = "a heap with a cell at zero",
    [CELL_ABOVE] = "a heap with a cell above zero",
    [CELL_HELD_AS_COUNTED] = "a heap with a cell that is held, and as often as its count says",
    [CELL_FAR_BELOW] = "a heap with a difference below -8,257",
    [CELL_FAR_ABOVE] = "a heap with a difference above 32,767",
    [FREE_CELL_BELOW] = "a heap with a free cell below zero",
    [FREE_CELL_ABOVE] = "a heap with a free cell above zero",
    [UNKNOWN_CELL_OFF] = "a heap with a cell of unknown kind that is off",
    [HELD_BY_ROOT] = "a heap with a root that holds a cell",
    [HELD_BY_SLOT] = "a heap with a slot that holds a cell",
    [HELD_BY_FREE_CELL] = "a heap with a slot of a free cell that holds one",
    [HELD_BY_QUEUE] = "a heap with an entry of the queue that holds a cell",
    [HELD_PAST_QUEUE] = "a heap with an entry past the queue length that holds a cell",
    [HELD_TWICE_IN_QUEUE] = "a heap with neighbours in the queue that hold the same cell",
    [REFERENCE_TO_LAST_CELL] = "a heap with the reference N",
    [LOST_JUST_ABOVE] = "a heap with the reference N + 1",
    [LOST_LARGEST] = "a heap with the reference 65,535",
    [LOST_IN_ROOTS] = "a heap with a root that is lost",
    [LOST_IN_SLOTS] = "a heap with a slot that is lost",
    [LOST_IN_QUEUE] = "a heap with an entry of the queue that is lost",
    [ROW_BELOW_ZERO] = "a heap whose sum is below zero",
    [REPORT_BELOW_ZERO] = "a report whose sum is below zero",
    [REPORT_PAST_32_BITS] = "a report whose sum is past 32 bits",
    [SIZE_BY_TABLE] = "SIZE for a table of the heap",
    [SIZE_BY_DIFFERENCES] = "SIZE for the differences alone",
    [TOTAL_BEFORE_SIZE] = "TOTAL where it would be SIZE",
    [MANY_BEFORE_SIZE] = "MANY where it would be SIZE",
    [MANY_BEFORE_TOTAL] = "MANY where it would be TOTAL",
    [THOUSANDTH_DONE] = "a thousandth heap that is done",
    [THOUSANDTH_SIZE] = "a thousandth heap that is refused SIZE",
    [MANY_AFTER_A_LIST] = "MANY with a report that may be, one of a thousand heaps",
    [LIST_LEADS_THERE] = "a report that a list was made for",
    [FEW_CELLS] = "as many cells as heaps, and one fewer",
    [MOST_CELLS] = "1,024 cells in each heap, and one more",
    [MOST_LOST] = "all entries lost but one for each cell below zero, and one more",
    [HIGHEST_SUM] = "the highest sum, and one more",
    [LOWEST_SUM_BY_LOST] = "the lowest sum, for the lost ones, and one less",
    [LOWEST_SUM_BY_CELLS] = "the lowest sum, for the heaps with a cell below zero, which are full, and one less",
    [LOWEST_SUM_BY_OTHERS] = "the lowest sum, for the other heaps, which have a cell each, and one less",
};

static unsigned long met[SITUATIONS];

/* A situation has to be met more often than so: a slip there shows in many audits. */
enum { MORE_OFTEN_THAN = 20 };

void coverage_situation(enum situation situation)
{
    met[situation]++;
}

static void if_so(bool so, enum situation situation)
{
    met[situation] += so;
}

static void note_cells(const struct heap *heap, const int32_t *differences, const struct row *row)
{
    bool free_below = false, free_above = false, unknown_off = false, far_below = false, far_above = false;
    for (size_t cell = 0; cell < heap->kind.len; cell++) {
        uint16_t kind = heap->kind.at[cell];
        free_below |= kind == FREE && differences[cell] < 0;
        free_above |= kind == FREE && differences[cell] > 0;
        unknown_off |= kind > BUFFER && differences[cell] != 0;
        far_below |= differences[cell] < -8257;
        far_above |= differences[cell] > 32767;
    }
    if_so(free_below, FREE_CELL_BELOW);
    if_so(free_above, FREE_CELL_ABOVE);
    if_so(unknown_off, UNKNOWN_CELL_OFF);
    if_so(far_below, CELL_FAR_BELOW);
    if_so(far_above, CELL_FAR_ABOVE);
    if_so(row->below > 0, CELL_BELOW);
    if_so(row->at > 0, CELL_AT);
    if_so(row->above > 0, CELL_ABOVE);
}

static void note_counted(const struct heap *heap, const int32_t *differences)
{
    bool as_counted = false;
    for (size_t cell = 0; cell < heap->kind.len; cell++)
        as_counted |= differences[cell] == 0 && heap->count.at[cell] > 0;
    if_so(as_counted, CELL_HELD_AS_COUNTED);
}

/* Where references stand. */
static const struct place {
    enum situation held, lost;
} roots = { HELD_BY_ROOT, LOST_IN_ROOTS }, slots = { HELD_BY_SLOT, LOST_IN_SLOTS }, queue = { HELD_BY_QUEUE, LOST_IN_QUEUE };

static void note_table(const struct table *table, size_t n, const struct place *place)
{
    bool held = false, lost = false, last = false, above = false, largest = false;
    for (size_t i = 0; i < table->len; i++) {
        uint16_t ref = table->at[i];
        held |= ref != 0 && ref <= n;
        lost |= ref > n;
        last |= ref == n;
        above |= ref == n + 1;
        largest |= ref == 65535;
    }
    if_so(held, place->held);
    if_so(lost, place->lost);
    if_so(last, REFERENCE_TO_LAST_CELL);
    if_so(above, LOST_JUST_ABOVE);
    if_so(largest, LOST_LARGEST);
}

static void note_free_slots(const struct heap *heap)
{
    bool held = false;
    for (size_t i = 0; i < heap->slots.len; i++)
        held |= heap->kind.at[i / SLOTS] == FREE && heap->slots.at[i] != 0 && heap->slots.at[i] <= heap->kind.len;
    if_so(held, HELD_BY_FREE_CELL);
}

static void note_queue(const struct heap *heap)
{
    bool past = false, twice = false;
    for (size_t i = 0; i < heap->queue.len; i++) {
        uint16_t ref = heap->queue.at[i];
        bool held = ref != 0 && ref <= heap->kind.len;
        past |= held && i >= heap->control.at[LENGTH];
        twice |= held && i > 0 && heap->queue.at[i - 1] == ref;
    }
    if_so(past, HELD_PAST_QUEUE);
    if_so(twice, HELD_TWICE_IN_QUEUE);
}

static void note_done(const struct heap *heap, const int32_t *differences, const struct audited *audited)
{
    size_t n = heap->kind.len;
    coverage_situation(sound(heap) ? AUDIT_OF_SOUND : AUDIT_OF_DAMAGED);
    if_so(n == 1, SMALLEST_HEAP);
    if_so(n == CELLS_MAX, LARGEST_HEAP);
    note_cells(heap, differences, &audited->heap);
    note_counted(heap, differences);
    note_table(&heap->roots, n, &roots);
    note_table(&heap->slots, n, &slots);
    note_table(&heap->queue, n, &queue);
    note_free_slots(heap);
    note_queue(heap);
    if_so(audited->heap.sum < 0, ROW_BELOW_ZERO);
    if_so(audited->report.totals.sum < 0, REPORT_BELOW_ZERO);
    if_so(audited->report.totals.sum > UINT32_MAX, REPORT_PAST_32_BITS);
    if_so(audited->report.heaps == HEAPS_MAX, THOUSANDTH_DONE);
}

static void note_refused(const struct heap *heap, struct report before, uint16_t refused)
{
    bool fits = lengths_fit(heap), may_be = possible(&box, &before);
    if_so(refused == SIZE, fits ? SIZE_BY_DIFFERENCES : SIZE_BY_TABLE);
    if_so(refused == SIZE && before.heaps == HEAPS_MAX - 1, THOUSANDTH_SIZE);
    if_so(refused == TOTAL && !fits, TOTAL_BEFORE_SIZE);
    if_so(refused == MANY && !fits, MANY_BEFORE_SIZE);
    if_so(refused == MANY && !may_be, MANY_BEFORE_TOTAL);
    if_so(refused == MANY && before.heaps == HEAPS_MAX && may_be, MANY_AFTER_A_LIST);
}

void coverage_audit(const struct heap *heap, const int32_t *differences, struct report before, const struct audited *audited)
{
    uint16_t refused = audited->refused;
    if_so(refused == DONE, AUDIT_DONE);
    if_so(refused == SIZE, AUDIT_SIZE);
    if_so(refused == TOTAL, AUDIT_TOTAL);
    if_so(refused == MANY, AUDIT_MANY);
    if (refused == DONE)
        note_done(heap, differences, audited);
    else
        note_refused(heap, before, refused);
}

bool audit_coverage_report(void)
{
    bool all = true;
    printf("audits:\n");
    for (int situation = 0; situation < SITUATIONS; situation++)
        all &= met_enough(names[situation], met[situation], MORE_OFTEN_THAN);
    return all;
}
