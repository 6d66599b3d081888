/* The same heap in C, as a careful C programmer writes it: to measure the proved one against. */
#ifndef BENCH_HEAP_H
#define BENCH_HEAP_H

#include "../include/vekszalir.h"

int c_fits(VEK_TABLES);
vek_answer c_fresh(VEK_TABLES);
vek_answer c_new(VEK_TABLES, VEK_FREED, size_t root, size_t new_kind, size_t finalizer);
vek_answer c_clear(VEK_TABLES, VEK_FREED, size_t root);
vek_answer c_copy(VEK_TABLES, VEK_FREED, size_t to, size_t from);
vek_answer c_load(VEK_TABLES, VEK_FREED, size_t to, size_t object, size_t slot);
vek_answer c_store(VEK_TABLES, VEK_FREED, size_t object, size_t slot, size_t from);
vek_answer c_collect(VEK_TABLES, VEK_FREED);
vek_answer c_start(VEK_TABLES, VEK_FREED, size_t root);
vek_answer c_finish(VEK_TABLES, VEK_FREED);
vek_answer c_batch(VEK_TABLES, const vek_record *records, size_t records_len, vek_answer *answers, size_t answers_len, vek_totals *totals);
vek_audited c_audit(VEK_TABLES, int32_t *differences, size_t differences_len, vek_report report);
uint8_t *c_cell_line(uint8_t *out, uint32_t heap, uint32_t cell, int32_t difference);

#endif
