/* Errors: one line each, with the file and the line they are about. */
#include "tool.h"

#include <inttypes.h>
#include <stdarg.h>

/* Writes a text; what would end or garble the line is a question mark. */
static void put_clean(FILE *to, const char *text)
{
    for (; *text != '\0'; text++) {
        unsigned char c = (unsigned char)*text;
        putc(c < ' ' || c == 127 ? '?' : c, to);
    }
}

enum status complain(const struct streams *io, enum status status, const char *file, unsigned long line,
                     const char *words, ...)
{
    char text[4 * MAX_WORDS];
    va_list given;
    va_start(given, words);
    vsnprintf(text, sizeof text, words, given);
    va_end(given);
    fflush(io->out); /* what was written before is seen before */
    put_clean(io->err, file);
    if (line != 0) {
        fprintf(io->err, ":%lu", line);
    }
    fputs(": ", io->err);
    put_clean(io->err, text);
    putc('\n', io->err);
    return status;
}

enum status complain_refused(const struct streams *io, const char *file, unsigned long line, uint32_t number)
{
    return complain(io, STATUS_REFUSED, file, line, "refused %" PRIu32 ": %s", number, hall_refusal_text(number, 0));
}

enum status complain_memory(const struct streams *io, const char *file)
{
    return complain(io, STATUS_FAILED, file, 0, "no memory");
}
