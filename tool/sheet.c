/* Texts that grow. */
#include "draw.h"

#include <stdarg.h>
#include <stdlib.h>

/* Makes room for so many bytes more. Whether there is memory. */
static int make_room(struct sheet *sheet, size_t more)
{
    if (sheet->room - sheet->length >= more) {
        return 1;
    }
    size_t room = 2 * sheet->room + more + 4096;
    char *at = realloc(sheet->at, room);
    if (!at) {
        sheet->failed = 1;
        return 0;
    }
    sheet->at = at;
    sheet->room = room;
    return 1;
}

void sheet_add(struct sheet *sheet, const char *words, ...)
{
    va_list given;
    va_start(given, words);
    int length = vsnprintf(NULL, 0, words, given);
    va_end(given);
    if (sheet->failed || length < 0 || !make_room(sheet, (size_t)length + 1)) {
        sheet->failed = 1;
        return;
    }
    va_start(given, words);
    vsnprintf(sheet->at + sheet->length, (size_t)length + 1, words, given);
    va_end(given);
    sheet->length += (size_t)length;
}

/* How a character is written between tags, NULL if as it is. XML has no character
 * below 32 but tab and line ends; these would change a line of words too. */
static const char *escape(unsigned char c)
{
    switch (c) {
    case '&':
        return "&amp;";
    case '<':
        return "&lt;";
    case '>':
        return "&gt;";
    default:
        return c < ' ' || c >= 127 ? "?" : NULL;
    }
}

void sheet_add_escaped(struct sheet *sheet, const char *text)
{
    for (; *text != '\0'; text++) {
        const char *escaped = escape((unsigned char)*text);
        if (escaped) {
            sheet_add(sheet, "%s", escaped);
        } else {
            sheet_add(sheet, "%c", *text);
        }
    }
}
