/* Counts what the audits have met, and says what they should have met but haven't. */
#ifndef AUDIT_COVERAGE_H
#define AUDIT_COVERAGE_H

#include "audit.h"

/* Situations that an audit meets. */
enum situation {
    AUDIT_DONE,
    AUDIT_SIZE,
    AUDIT_TOTAL,
    AUDIT_MANY,
    AUDIT_OF_SOUND,
    AUDIT_OF_DAMAGED,
    SMALLEST_HEAP,
    LARGEST_HEAP,
    CELL_BELOW,
    CELL_AT,
    CELL_ABOVE,
    CELL_HELD_AS_COUNTED,
    CELL_FAR_BELOW,
    CELL_FAR_ABOVE,
    FREE_CELL_BELOW,
    FREE_CELL_ABOVE,
    UNKNOWN_CELL_OFF,
    HELD_BY_ROOT,
    HELD_BY_SLOT,
    HELD_BY_FREE_CELL,
    HELD_BY_QUEUE,
    HELD_PAST_QUEUE,
    HELD_TWICE_IN_QUEUE,
    REFERENCE_TO_LAST_CELL,
    LOST_JUST_ABOVE,
    LOST_LARGEST,
    LOST_IN_ROOTS,
    LOST_IN_SLOTS,
    LOST_IN_QUEUE,
    ROW_BELOW_ZERO,
    REPORT_BELOW_ZERO,
    REPORT_PAST_32_BITS,
    SIZE_BY_TABLE,
    SIZE_BY_DIFFERENCES,
    TOTAL_BEFORE_SIZE,
    MANY_BEFORE_SIZE,
    MANY_BEFORE_TOTAL,
    THOUSANDTH_DONE,
    THOUSANDTH_SIZE,
    MANY_AFTER_A_LIST,
    LIST_LEADS_THERE,
    FEW_CELLS,
    MOST_CELLS,
    MOST_LOST,
    HIGHEST_SUM,
    LOWEST_SUM_BY_LOST,
    LOWEST_SUM_BY_CELLS,
    LOWEST_SUM_BY_OTHERS,
    SITUATIONS
};

void coverage_situation(enum situation situation);

/* What was audited, with which report, and what it was answered. */
void coverage_audit(const struct heap *heap, const int32_t *differences, struct report before, const struct audited *audited);

/* Prints the counts; true if nothing is lacking. */
bool audit_coverage_report(void);

#endif
