#include "audit.h"

#include "parts.h"

struct row cell_row(int32_t difference)
{
    return (struct row){
        .below = difference < 0,
        .at = difference == 0,
        .above = difference > 0,
        .sum = difference,
    };
}

struct row add_rows(struct row a, struct row b)
{
    return (struct row){
        .below = a.below + b.below,
        .at = a.at + b.at,
        .above = a.above + b.above,
        .sum = a.sum + b.sum,
        .lost = a.lost + b.lost,
        .size = a.size + b.size,
    };
}

/* "Every entry [..] counts": it takes one off the difference of the cell that it holds. "references above N are lost: they
   count for nobody and have their own total". */
static uint64_t count_entries(const struct table *table, int32_t *differences, size_t n)
{
    uint64_t lost = 0;
    for (size_t i = 0; i < table->len; i++) {
        uint16_t ref = table->at[i];
        if (ref > n)
            lost++;
        else if (ref != 0)
            differences[ref - 1]--;
    }
    return lost;
}

/* "the stored count minus the counted references [..] Every entry of roots, slots and queue counts, free cells' slots and
   entries past the queue length too" */
static struct row audit_cells(const struct heap *heap, int32_t *differences)
{
    size_t n = heap->kind.len;
    struct row row = { 0 };
    for (size_t cell = 0; cell < n; cell++)
        differences[cell] = heap->count.at[cell];
    row.lost += count_entries(&heap->roots, differences, n);
    row.lost += count_entries(&heap->slots, differences, n);
    row.lost += count_entries(&heap->queue, differences, n);
    for (size_t cell = 0; cell < n; cell++)
        row = add_rows(row, cell_row(differences[cell]));
    return row;
}

static struct audited refused_unread(uint16_t refused, struct report report)
{
    return (struct audited){ .refused = refused, .report = report };
}

/* "A heap refused SIZE is counted apart and adds nothing else." */
static struct audited taken(uint16_t refused, struct row row, struct report report)
{
    struct report after = { report.heaps + 1, add_rows(report.totals, row) };
    return (struct audited){ refused, row, after };
}

/* "Any heap after the first thousand, SIZE ones counted, is refused 14 MANY, here before SIZE, adds nothing"; the header puts
   TOTAL between them. `differences` "has to be N long like the heap's own tables". */
struct audited audit(const struct heap *heap, int32_t *differences, size_t len, struct report report)
{
    if (report.heaps >= HEAPS_MAX)
        return refused_unread(MANY, report);
    if (!possible(&box, &report))
        return refused_unread(TOTAL, report);
    if (!lengths_fit(heap) || len != heap->kind.len)
        return taken(SIZE, (struct row){ .size = 1 }, report);
    return taken(DONE, audit_cells(heap, differences), report);
}
