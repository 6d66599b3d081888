#include "split.h"

#include <string.h>

enum { DIGITS_MAX = 5, VALUE_MAX = 65535 };

size_t find(struct text text, const char *separator)
{
    size_t len = strlen(separator), at = 0;
    while (at + len <= text.len && memcmp(text.at + at, separator, len) != 0)
        at++;
    return at + len <= text.len ? at : text.len;
}

struct text cut(struct text *rest, const char *separator)
{
    struct text piece = { rest->at, find(*rest, separator) };
    size_t taken = piece.len == rest->len ? piece.len : piece.len + strlen(separator);
    rest->at += taken;
    rest->len -= taken;
    return piece;
}

/* "CR LF, the last one optional" */
bool next_line(struct text *rest, struct text *line)
{
    if (rest->len == 0)
        return false;
    *line = cut(rest, "\r\n");
    return true;
}

/* "decimal fields, unquoted, 1 to 5 digits, at most 65,535" */
bool number(struct text field, unsigned *value)
{
    *value = 0;
    if (field.len < 1 || field.len > DIGITS_MAX)
        return false;
    for (size_t i = 0; i < field.len; i++) {
        if (field.at[i] < '0' || field.at[i] > '9')
            return false;
        *value = 10 * *value + (field.at[i] - '0');
    }
    return *value <= VALUE_MAX;
}

size_t commas(struct text line)
{
    size_t found = 0;
    for (size_t i = 0; i < line.len; i++)
        found += line.at[i] == ',';
    return found;
}
