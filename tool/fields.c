/* Fields of a line of text, for the words that the tool adds to the text form. */
#include "tool.h"

#include <string.h>

int is_blank(uint8_t c)
{
    return c == ' ' || c == '\t' || c == '\r';
}

/* Where the field, or the blanks, that begin at an offset end. */
static size_t skip(const uint8_t *line, size_t length, size_t at, int blanks)
{
    while (at < length && line[at] != '#' && is_blank(line[at]) == blanks) {
        at++;
    }
    return at;
}

size_t split_fields(const uint8_t *line, size_t length, struct field *fields)
{
    size_t count = 0;
    size_t at = skip(line, length, 0, 1);
    while (at < length && line[at] != '#') {
        size_t end = skip(line, length, at, 0);
        if (count == MAX_FIELDS) {
            return MAX_FIELDS + 1;
        }
        fields[count++] = (struct field){(const char *)line + at, end - at};
        at = skip(line, length, end, 1);
    }
    return count;
}

int field_is(struct field field, const char *word)
{
    return field.length == strlen(word) && memcmp(field.at, word, field.length) == 0;
}

int field_number(struct field field, uint32_t *number)
{
    uint64_t sum = 0;
    for (size_t i = 0; i < field.length; i++) {
        if (field.at[i] < '0' || field.at[i] > '9') {
            return 0;
        }
        sum = 10 * sum + (uint64_t)(field.at[i] - '0');
        if (sum > UINT32_MAX) {
            return 0;
        }
    }
    *number = (uint32_t)sum;
    return field.length != 0;
}
