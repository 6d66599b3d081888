/* What a comparison should have met. */
#ifndef MET_H
#define MET_H

#include <stdbool.h>

/* Says that something is lacking, if it is; whether it is. */
bool lacking(bool lacks, const char *what, const char *which);

/* Prints how often something was met; true if it was more often than so. */
bool met_enough(const char *what, unsigned long met, unsigned long more_often_than);

#endif
