#include "input.h"

#include <stdlib.h>

struct text read_all(FILE *file)
{
    size_t room = 1 << 16, len = 0;
    char *at = malloc(room);
    while (!feof(file) && !ferror(file)) {
        if (len == room)
            at = realloc(at, room *= 2);
        len += fread(at + len, 1, room - len, file);
    }
    return (struct text){ at, len };
}
