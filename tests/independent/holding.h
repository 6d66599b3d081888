/* References in tables that are made directly. */
#ifndef HOLDING_H
#define HOLDING_H

#include "heap.h"

/* The entry, which is empty before, holds the cell, and its count says so. */
void hold(struct heap *heap, uint16_t *entry, size_t cell);

#endif
