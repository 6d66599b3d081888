/* The input of a program. */
#ifndef INPUT_H
#define INPUT_H

#include "split.h"

#include <stdio.h>

/* All that the file has; the room is malloc's. */
struct text read_all(FILE *file);

#endif
