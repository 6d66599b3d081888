/* Inputs to be handed over in bits. Their room is malloc's, and theirs who ask for them. */
#ifndef TEXTS_H
#define TEXTS_H

#include "lines.h"

/* Lines of calls, most of which suit a sound heap, some of them spoilt. The input may end in any way. */
struct text random_text(struct heap *heap, size_t lines);

/* So many bytes of a pattern again and again, between two others. */
struct text repeated_text(const char *before, const char *pattern, size_t len, const char *behind);

void text_free(struct text *text);

#endif
