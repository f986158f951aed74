/* Runs: read from run files, or unfolded from texts; and halls that go through them. */
#include "tool.h"

#include <inttypes.h>
#include <stdlib.h>
#include <string.h>

/* -- A run in memory ----------------------------------------------------- */

int run_add_action(struct run *run, const uint32_t *action)
{
    if (run->count == MAX_RUN) {
        return 0;
    }
    memcpy(run->actions + ACTION_WORDS * run->count, action, ACTION_WORDS * sizeof *action);
    run->asked[run->count++] = 0;
    return 1;
}

int run_add_note(struct run *run, struct note note)
{
    if (run->note_count == run->note_room) {
        size_t room = run->note_room == 0 ? 16 : 2 * run->note_room;
        struct note *notes = realloc(run->notes, room * sizeof *notes);
        if (!notes) {
            return 0;
        }
        run->notes = notes;
        run->note_room = room;
    }
    run->notes[run->note_count++] = note;
    return 1;
}

void run_free(struct run *run)
{
    free(run->notes);
    free(run->file.at);
}

/* -- Run files ----------------------------------------------------------- */

static void take_opening(struct opening *opening, const uint8_t *words)
{
    opening->n = hall_word(words, HALL_RUN_SIZE);
    opening->founders = hall_word(words, HALL_RUN_FOUNDERS);
    opening->third = hall_word(words, HALL_RUN_THIRD);
    for (size_t i = 0; i < HALL_RECORDERS; i++) {
        opening->votes[i] = hall_word(words, HALL_RUN_VOTES + i);
    }
}

/* Takes the actions of a run file from an offset on. */
static void take_actions(struct run *run, size_t at)
{
    uint8_t words[HALL_ANSWER_LENGTH];
    while (hall_run_action(run->file.at, run->file.length, at, words, sizeof words) == HALL_OK &&
           hall_word(words, HALL_ACTION_END) == 0) {
        const uint32_t action[ACTION_WORDS] = {
            hall_word(words, HALL_ACTION_K),
            hall_word(words, HALL_ACTION_R),
            hall_word(words, HALL_ACTION_A),
            hall_word(words, HALL_ACTION_B),
        };
        if (!run_add_action(run, action)) {
            return;
        }
        at = hall_offset(words, HALL_ACTION_NEXT);
    }
}

static enum status read_run_file(const struct streams *io, struct run *run)
{
    uint8_t words[HALL_ANSWER_LENGTH];
    enum status status = read_bytes(io, run->name, HALL_MAX_FILE + 1, &run->file);
    if (status != STATUS_FINE) {
        return status;
    }
    uint32_t number = hall_run_read(run->file.at, run->file.length, words, sizeof words);
    if (number != HALL_OK) {
        return complain_refused(io, run->name, 0, number);
    }
    take_opening(&run->opening, words);
    take_actions(run, hall_offset(words, HALL_RUN_START));
    return STATUS_FINE;
}

/* -- Texts --------------------------------------------------------------- */

enum status run_write(const struct streams *io, struct run *run, unsigned long line)
{
    const struct opening *o = &run->opening;
    uint8_t words[HALL_ANSWER_LENGTH];
    uint8_t *at = realloc(run->file.at, HALL_MAX_FILE);
    if (!at) {
        return complain_memory(io, run->name);
    }
    run->file.at = at;
    uint32_t number = hall_run_write(run->file.at, HALL_MAX_FILE, o->n, o->founders, o->third, o->votes[0],
                                     o->votes[1], o->votes[2], o->votes[3], o->votes[4], o->votes[5], o->votes[6],
                                     o->votes[7], run->actions, ACTION_WORDS * run->count, words, sizeof words);
    if (number != HALL_OK) {
        return complain(io, STATUS_REFUSED, run->name, line, "%zu actions refused %" PRIu32 ": %s", run->count, number,
                        hall_refusal_text(number, 0));
    }
    run->file.length = hall_word(words, HALL_WRITTEN_LENGTH);
    return STATUS_FINE;
}

/* A text has no zero byte where the opening block of a run file always has one. */
static int is_binary(const struct bytes *text)
{
    size_t first = text->length < HALL_RUN_BLOCK ? text->length : HALL_RUN_BLOCK;
    return memchr(text->at, '\0', first) != NULL;
}

/* Some editors put a byte order mark in front of a text. */
static int has_mark(const struct bytes *text)
{
    return text->length >= 3 && memcmp(text->at, "\xef\xbb\xbf", 3) == 0;
}

/* Says why bytes are no text. */
static enum status complain_binary(const struct streams *io, const char *name, const struct bytes *bytes)
{
    uint8_t words[HALL_ANSWER_LENGTH];
    uint32_t number = hall_run_read(bytes->at, bytes->length, words, sizeof words);
    if (number != HALL_OK) {
        return complain_refused(io, name, 0, number);
    }
    return complain(io, STATUS_USAGE, name, 0, "a run file where a text is asked for; its name must end in .run");
}

static enum status unfold(const struct streams *io, const struct bytes *text, enum reading reading, struct run *run)
{
    if (is_binary(text)) {
        return complain_binary(io, run->name, text);
    }
    if (text->length > MAX_TEXT) {
        return complain(io, STATUS_USAGE, run->name, 0, "a text has at most %zu bytes", MAX_TEXT);
    }
    if (has_mark(text)) {
        return complain(io, STATUS_USAGE, run->name, 1, "a byte order mark stands before the opening");
    }
    enum status status = story_read(io, text, reading, run);
    return status == STATUS_FINE ? run_write(io, run, 0) : status;
}

enum status run_read_text(const struct streams *io, const char *name, enum reading reading, struct run *run)
{
    struct bytes text;
    memset(run, 0, sizeof *run);
    run->name = name;
    enum status status = read_bytes(io, name, MAX_TEXT + 1, &text);
    if (status == STATUS_FINE) {
        status = unfold(io, &text, reading, run);
    }
    free(text.at);
    return status;
}

enum status run_read(const struct streams *io, const char *name, enum reading reading, struct run *run)
{
    if (!ends_in(name, ".run")) {
        return run_read_text(io, name, reading, run);
    }
    memset(run, 0, sizeof *run);
    run->name = name;
    return read_run_file(io, run);
}

/* -- Halls --------------------------------------------------------------- */

uint32_t open_hall(uint8_t *hall, const struct opening *opening)
{
    if (opening->third == 0) {
        return hall_open_built_in(hall, HALL_LENGTH, opening->n, opening->founders);
    }
    return hall_open_row(hall, HALL_LENGTH, opening->n, opening->founders, opening->votes);
}

uint32_t walk_open(struct walk *walk, const struct run *run)
{
    walk->run = run;
    walk->done = 0;
    walk->number = HALL_OK;
    return open_hall(walk->hall, &run->opening);
}

const uint32_t *walk_next(const struct walk *walk)
{
    return walk->run->actions + ACTION_WORDS * walk->done;
}

void walk_step(struct walk *walk)
{
    const uint32_t *action = walk_next(walk);
    walk->number = hall_step(walk->hall, HALL_LENGTH, action[K], action[R], action[A], action[B], walk->answer,
                             sizeof walk->answer);
    walk->done++;
}
