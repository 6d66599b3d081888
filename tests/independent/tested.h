/* The heap under test, called in the same way as the independent one. */
#ifndef TESTED_H
#define TESTED_H

#include "../../include/vekszalir.h"
#include "audit.h"
#include "bytes.h"
#include "heap.h"
#include "lent_lists.h"

struct answer tested_call(struct heap *heap, struct table freed, enum op op, size_t a, size_t b, size_t c);
vek_progress tested_take(struct heap *heap, vek_reader reader, const struct bytes *in, const struct bytes *out);
vek_progress tested_end(struct heap *heap, vek_reader reader, const struct bytes *out);
struct answer tested_batch(struct heap *heap, const struct lent_lists *lists);
struct audited tested_audit(struct heap *heap, int32_t *differences, size_t len, struct report report);

#endif
