/* Files: read whole, written whole or not at all. */
#define _XOPEN_SOURCE 700

#include "tool.h"

#include <errno.h>
#include <fcntl.h>
#include <stdlib.h>
#include <string.h>
#include <sys/stat.h>
#include <unistd.h>

static int is_stream(const char *name)
{
    return strcmp(name, "-") == 0;
}

/* -- Reading ------------------------------------------------------------- */

/* Makes room for more bytes, up to `most`. Whether there is memory. */
static int grow(struct bytes *bytes, size_t *room, size_t most)
{
    size_t wanted = *room == 0 ? 4096 : 2 * *room;
    wanted = wanted < most ? wanted : most;
    uint8_t *at = realloc(bytes->at, wanted);
    if (!at) {
        return 0;
    }
    bytes->at = at;
    *room = wanted;
    return 1;
}

static enum status read_stream(const struct streams *io, const char *name, FILE *from, size_t most,
                               struct bytes *bytes)
{
    size_t room = 0;
    do {
        if (bytes->length == room && !grow(bytes, &room, most)) {
            return complain_memory(io, name);
        }
        errno = 0;
        bytes->length += fread(bytes->at + bytes->length, 1, room - bytes->length, from);
        if (ferror(from)) {
            return complain(io, STATUS_FAILED, name, 0, "cannot be read: %s", strerror(errno));
        }
    } while (!feof(from) && bytes->length < most);
    return STATUS_FINE;
}

enum status read_bytes(const struct streams *io, const char *name, size_t most, struct bytes *bytes)
{
    bytes->at = NULL;
    bytes->length = 0;
    if (is_stream(name)) {
        return read_stream(io, name, io->in, most, bytes);
    }
    FILE *from = fopen(name, "rb");
    if (!from) {
        return complain(io, STATUS_FAILED, name, 0, "cannot be read: %s", strerror(errno));
    }
    enum status status = read_stream(io, name, from, most, bytes);
    fclose(from);
    return status;
}

/* -- Writing ------------------------------------------------------------- */

/* Writes bytes to a stream and closes it. Whether that went well. */
static int write_and_close(FILE *to, const uint8_t *bytes, size_t length)
{
    int well = fwrite(bytes, 1, length, to) == length;
    int why = errno;
    if (fclose(to) != 0) {
        return 0;
    }
    errno = why;
    return well;
}

/* Writes straight to a file: a device, a pipe. Whether that went well. */
static int write_in_place(const char *path, const uint8_t *bytes, size_t length)
{
    FILE *to = fopen(path, "wb");
    return to && write_and_close(to, bytes, length);
}

/* Opens a new file in the folder of a path, with a short name. NULL if that cannot
 * be. */
static FILE *open_beside(const char *path, char *name, size_t room)
{
    const char *slash = strrchr(path, '/');
    int at = -1, folder = slash ? (int)(slash + 1 - path) : 0;
    for (unsigned i = 0; i < 100 && at < 0; i++) {
        snprintf(name, room, "%.*s.hall-%ld-%u", folder, path, (long)getpid(), i);
        at = open(name, O_WRONLY | O_CREAT | O_EXCL, 0666);
        if (at < 0 && errno != EEXIST) {
            break;
        }
    }
    return at < 0 ? NULL : fdopen(at, "wb");
}

/* Writes a new file and gives it the name of the old one, if there is one with
 * its rights. Whether that went well; else nothing is left behind. */
static int write_beside(const char *path, const struct stat *old, const uint8_t *bytes, size_t length)
{
    size_t room = strlen(path) + 40;
    char *name = malloc(room);
    FILE *to = name ? open_beside(path, name, room) : NULL;
    int kept = to && (!old || fchmod(fileno(to), old->st_mode & 0777) == 0);
    int well = to && write_and_close(to, bytes, length) && kept && rename(name, path) == 0;
    if (to && !well) {
        int why = errno;
        unlink(name);
        errno = why;
    }
    free(name);
    return well;
}

int ends_in(const char *name, const char *ending)
{
    size_t length = strlen(name), last = strlen(ending);
    return length >= last && strcmp(name + length - last, ending) == 0;
}

int is_same_file(const char *one, const char *other)
{
    struct stat first, second;
    return !is_stream(one) && !is_stream(other) && stat(one, &first) == 0 && stat(other, &second) == 0 &&
           S_ISREG(first.st_mode) && first.st_dev == second.st_dev && first.st_ino == second.st_ino;
}

/* Writes a file. A link to a file stays one. Whether that went well. */
static int write_path(const char *path, const uint8_t *bytes, size_t length)
{
    struct stat old;
    if (stat(path, &old) != 0) {
        return errno == ENOENT && write_beside(path, NULL, bytes, length);
    }
    if (!S_ISREG(old.st_mode)) {
        return write_in_place(path, bytes, length);
    }
    char *target = realpath(path, NULL);
    int well = target && write_beside(target, &old, bytes, length);
    free(target);
    return well;
}

/* Says that the output stream failed; not if nobody reads any more. */
static enum status complain_output(const struct streams *io, int why)
{
    if (why == EPIPE) {
        return STATUS_FAILED;
    }
    return complain(io, STATUS_FAILED, "standard output", 0, "cannot be written%s%s", why ? ": " : "",
                    why ? strerror(why) : "");
}

/* Writes to the output stream. A failure is told here, and no more when it is
 * flushed. */
static enum status write_output(const struct streams *io, const uint8_t *bytes, size_t length)
{
    errno = 0;
    if (fwrite(bytes, 1, length, io->out) == length) {
        return STATUS_FINE;
    }
    int why = errno;
    clearerr(io->out);
    return complain_output(io, why);
}

enum status write_bytes(const struct streams *io, const char *name, const uint8_t *bytes, size_t length)
{
    if (is_stream(name)) {
        return write_output(io, bytes, length);
    }
    if (!write_path(name, bytes, length)) {
        return complain(io, STATUS_FAILED, name, 0, "cannot be written: %s", strerror(errno));
    }
    return STATUS_FINE;
}

enum status flush_output(const struct streams *io)
{
    errno = 0;
    if (fflush(io->out) == 0 && !ferror(io->out)) {
        return STATUS_FINE;
    }
    return complain_output(io, errno);
}
