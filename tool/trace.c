/* hall trace: the actions of a run in words, with their answers and what they changed. */
#include "tool.h"

#include <inttypes.h>
#include <stdlib.h>
#include <string.h>

/* A trace that is being written. */
struct trace {
    const struct streams *io;
    const struct options *options;
    const struct run *run;
    struct walk walk;
    size_t notes; /* how many notes were passed */
    int differs;  /* whether something was refused that no `=` asked for */
};

/* Whether an action is one to show. */
static int is_shown(const struct options *options, const uint32_t *action, uint32_t number)
{
    if (options->refused && number == HALL_OK) {
        return 0;
    }
    return !options->has_only || action[R] == options->only;
}

void walk_trace(struct walk *walk, char words[MAX_TRACE])
{
    const uint32_t *action = walk_next(walk);
    uint8_t before[HALL_ANSWER_LENGTH], after[HALL_ANSWER_LENGTH];
    char line[MAX_WORDS], answer[MAX_WORDS], changes[MAX_CHANGES];
    page_of(walk->hall, action[R], before);
    walk_step(walk);
    page_of(walk->hall, action[R], after);
    action_words(action, line);
    answer_words(action[K], walk->number, walk->answer, answer);
    changes_words(before, after, "->", changes);
    snprintf(words, MAX_TRACE, "%zu  %s  %s%s%s", walk->done, line, answer, changes[0] == '\0' ? "" : "  ", changes);
}

static void trace_action(struct trace *trace)
{
    struct walk *walk = &trace->walk;
    const uint32_t *action = walk_next(walk);
    char words[MAX_TRACE];
    walk_trace(walk, words);
    if (walk->number != HALL_OK && !trace->run->asked[walk->done - 1]) {
        trace->differs = 1;
    }
    if (is_shown(trace->options, action, walk->number)) {
        fprintf(trace->io->out, "%s\n", words);
    }
}

enum status print_note(const struct streams *io, const struct run *run, const uint8_t *hall, const struct note *note)
{
    if (note->kind == NOTE_SETTLE && note->number == HALL_OK) { /* it has no action and no number */
        fprintf(io->out, "settle  %s: no step is left\n", hall_case_word(HALL_CASE_DONE));
        return STATUS_FINE;
    }
    if (note->kind == NOTE_SETTLE) {
        fprintf(io->out, "settle  refused %" PRIu32 ": %s\n", note->number, hall_refusal_text(note->number, 0));
        return STATUS_FINE;
    }
    uint32_t number = print_page(io->out, hall, note->number);
    if (number == HALL_OK) {
        return STATUS_FINE;
    }
    return complain(io, STATUS_DIFFERS, run->name, note->line,
                    "the page of recorder %" PRIu32 " is refused %" PRIu32 ": %s", note->number, number,
                    hall_refusal_text(number, 0));
}

/* Whether a note is of a settle that was refused, and no `=` asked for it. */
static int is_refused(const struct note *note)
{
    return note->kind == NOTE_SETTLE && note->number != HALL_OK && !note->asked;
}

/* Whether a note is one to show. */
static int is_note_shown(const struct options *options, const struct note *note)
{
    if (note->kind == NOTE_SETTLE) {
        return !options->has_only && (!options->refused || note->number != HALL_OK);
    }
    return !options->refused && (!options->has_only || options->only == note->number);
}

static void trace_note(struct trace *trace, const struct note *note)
{
    if (is_refused(note)) {
        trace->differs = 1;
    }
    if (is_note_shown(trace->options, note) &&
        print_note(trace->io, trace->run, trace->walk.hall, note) != STATUS_FINE) {
        trace->differs = 1;
    }
}

/* Takes the notes that stand before the next action. */
static void trace_notes(struct trace *trace)
{
    const struct run *run = trace->run;
    for (; trace->notes < run->note_count && run->notes[trace->notes].after == trace->walk.done; trace->notes++) {
        trace_note(trace, &run->notes[trace->notes]);
    }
}

static enum status trace_run(const struct streams *io, const struct options *options, const struct run *run)
{
    struct trace trace = {.io = io, .options = options, .run = run};
    uint32_t number = walk_open(&trace.walk, run);
    if (number != HALL_OK) {
        return complain_refused(io, run->name, 0, number);
    }
    trace_notes(&trace);
    while (trace.walk.done < run->count) {
        trace_action(&trace);
        trace_notes(&trace);
    }
    return trace.differs || run->failed ? STATUS_DIFFERS : STATUS_FINE;
}

/* -- The listing --------------------------------------------------------- */

/* Room for a listing and for the last hall. */
struct listing {
    uint8_t text[HALL_MAX_LISTING], hall[HALL_LENGTH];
};

static enum status print_listing(const struct streams *io, const struct run *run)
{
    uint8_t words[HALL_ANSWER_LENGTH];
    struct listing *listing = malloc(sizeof *listing);
    if (!listing) {
        return complain_memory(io, run->name);
    }
    uint32_t number = hall_run_list(run->file.at, run->file.length, listing->hall, sizeof listing->hall, listing->text,
                                    sizeof listing->text, words, sizeof words);
    if (number == HALL_OK) {
        fwrite(listing->text, 1, hall_word(words, HALL_LISTING_LENGTH), io->out);
    }
    free(listing);
    return number == HALL_OK ? STATUS_FINE : complain_refused(io, run->name, 0, number);
}

/* Whether an action was refused that no `=` asked for. */
static int has_refused(const struct run *run)
{
    struct walk walk;
    if (walk_open(&walk, run) != HALL_OK) {
        return 1;
    }
    while (walk.done < run->count) {
        walk_step(&walk);
        if (walk.number != HALL_OK && !run->asked[walk.done - 1]) {
            return 1;
        }
    }
    for (size_t i = 0; i < run->note_count; i++) {
        if (is_refused(&run->notes[i])) {
            return 1;
        }
    }
    return run->failed;
}

/* A run file that the library refuses has a listing too. */
static enum status list_run(const struct streams *io, const struct run *run, enum status status)
{
    if (run->file.at && (status == STATUS_FINE || status == STATUS_REFUSED)) {
        enum status listed = print_listing(io, run);
        status = listed != STATUS_FINE ? listed : status;
    }
    return status == STATUS_FINE && has_refused(run) ? STATUS_DIFFERS : status;
}

enum status trace_command(const struct streams *io, const struct options *options)
{
    struct run run;
    enum status status = run_read(io, options->words[0], READ_ASKS, &run);
    if (options->listing) {
        status = list_run(io, &run, status);
    } else if (status == STATUS_FINE) {
        status = trace_run(io, options, &run);
    }
    run_free(&run);
    return status;
}
