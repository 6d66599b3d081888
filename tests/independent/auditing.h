/* The audit of a pair of heaps. Both are asked, and the first difference in the answer, the differences or the tables ends the
   program with a report. */
#ifndef AUDITING_H
#define AUDITING_H

#include "audit.h"
#include "pair.h"

/* Differences lent to both audits. */
struct lent {
    int32_t *ours, *theirs;
    size_t len;
    int32_t *guarded; /* the room of `theirs`, with guard entries around it */
};

struct lent lent_of(size_t len);
void lent_free(struct lent *lent);

struct audited pair_audit(struct pair *pair, struct lent *lent, struct report report);

/* With so many differences lent as there are cells, for who doesn't look at them. */
struct audited pair_audit_fitting(struct pair *pair, struct report report);

/* Whether all numbers are the same. */
bool same_report(struct report a, struct report b);

#endif
