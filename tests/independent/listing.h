/* Notes what the calls do with the table for the freed cells. */
#ifndef LISTING_H
#define LISTING_H

#include "pair.h"

/* After any call but those of lines, which take no such table. */
void note_list(const struct pair *pair, enum op op, struct answer answer);

/* After a FINISH done: the cell that was finalised, and what its running root held. */
void note_finish_list(const struct table *list, uint16_t head, uint16_t held);

#endif
