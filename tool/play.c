/* hall play: a prompt. Lines are taken one by one, each answered before the next is read. */
#define _XOPEN_SOURCE 700

#include "story.h"

#include <errno.h>
#include <inttypes.h>
#include <stdlib.h>
#include <string.h>
#include <unistd.h>

/* Bytes of a line that is typed, at most. */
enum { MAX_TYPED = 4096 };

/* A prompt. The story takes the lines; the walk goes through the run action by action
 * behind it, and makes the lines that are shown. */
struct prompt {
    const struct streams *io;
    const char *file;    /* the FILE that was taken first, NULL for none */
    enum status status;  /* the greatest one so far */
    int is_terminal;     /* whether the lines come from a terminal */
    int quits;           /* whether the line is the last */
    size_t length;       /* of the line, without its end */
    int is_long;         /* whether it has more than MAX_TYPED bytes */
    uint8_t line[MAX_TYPED + 1];
    struct run run;
    struct story story, before; /* before: as the story was when the line came */
    struct walk walk;           /* its run is NULL before the opening */
};

static void raise_status(struct prompt *prompt, enum status status)
{
    prompt->status = status > prompt->status ? status : prompt->status;
}

static enum status wrong(const struct prompt *prompt, const char *words)
{
    return complain(prompt->io, STATUS_USAGE, prompt->run.name, prompt->story.line, "%s", words);
}

/* Says that the library and the prompt differ. */
static void differ(struct prompt *prompt, const char *words)
{
    raise_status(prompt, complain(prompt->io, STATUS_DIFFERS, prompt->run.name, prompt->story.line, "%s", words));
}

/* -- The run behind the prompt -------------------------------------------- */

/* Takes the walk to the end of the run: its hall is the story's. */
static void follow(struct prompt *prompt)
{
    struct walk *walk = &prompt->walk;
    while (walk->done < prompt->run.count) {
        walk_step(walk);
    }
    if (memcmp(walk->hall, prompt->story.present.hall, HALL_LENGTH) != 0) {
        differ(prompt, "the actions of the run do not lead to the hall");
    }
}

/* The same from the opening on. */
static void follow_anew(struct prompt *prompt)
{
    walk_open(&prompt->walk, &prompt->run);
    follow(prompt);
}

/* Shows the opening if it is new, and the actions that the walk has not passed. */
static void show_actions(struct prompt *prompt)
{
    FILE *out = prompt->io->out;
    char words[MAX_TRACE];
    if (!prompt->walk.run) {
        opening_words(&prompt->run.opening, words);
        fprintf(out, "%s  %s\n", words, hall_case_word(HALL_CASE_DONE));
        walk_open(&prompt->walk, &prompt->run);
    }
    while (prompt->walk.done < prompt->run.count) {
        walk_trace(&prompt->walk, words);
        fprintf(out, "%s\n", words);
    }
}

/* Shows what the line has noted, and forgets it. */
static void show_notes(struct prompt *prompt)
{
    struct run *run = &prompt->run;
    for (size_t i = 0; i < run->note_count; i++) {
        raise_status(prompt, print_note(prompt->io, run, prompt->story.present.hall, &run->notes[i]));
    }
    run->note_count = 0;
    if (prompt->story.last == LAST_SETTLE) {
        prompt->story.last = LAST_TOLD;
    }
}

/* -- Lines of text ---------------------------------------------------------- */

/* Takes a line as a text has it. Of one that is wrong, or has more actions than a run
 * file holds, nothing is taken. */
static enum status take_text(struct prompt *prompt)
{
    struct story *story = &prompt->story;
    struct run *run = &prompt->run;
    const struct bytes text = {prompt->line, prompt->length + 1};
    size_t at = 0, count = run->count;
    prompt->before = *story;
    enum status status = take_line_at(story, &text, &at);
    if (status == STATUS_FINE && story->is_open) {
        status = run_write(prompt->io, run, story->line);
    }
    if (status != STATUS_FINE) {
        *story = prompt->before;
        run->count = count;
        run->note_count = 0;
    } else if (story->is_open) {
        show_actions(prompt);
        follow(prompt);
        show_notes(prompt);
    }
    return status;
}

/* -- Words of the prompt ---------------------------------------------------- */

/* Shows the action at a place, which was taken back of so many, and what that has
 * changed on the recorder's page. */
static void show_back(const struct prompt *prompt, size_t place, size_t count)
{
    const uint32_t *action = prompt->run.actions + ACTION_WORDS * (place - 1);
    uint8_t before[HALL_ANSWER_LENGTH], after[HALL_ANSWER_LENGTH];
    char words[MAX_WORDS], changes[MAX_CHANGES];
    page_of(prompt->walk.hall, action[R], before);
    page_of(prompt->story.present.hall, action[R], after);
    action_words(action, words);
    size_t changed = changes_words(before, after, "->", changes);
    fprintf(prompt->io->out, "back  %zu  %s%s%s\n", place, words, changed == 0 ? "" : "  ", changes);
    if (count > place) {
        fprintf(prompt->io->out, "back  %zu refused after it\n", count - place);
    }
}

/* Takes the newest accepted action back. Where the undo buffer was lent from the opening
 * on that is refused only if none is held; the buffer's first byte is how many are. */
static enum status back(struct prompt *prompt)
{
    const uint8_t *held = prompt->story.present.undo;
    const unsigned old = held[0];
    size_t place = newest_accepted(&prompt->story), count = prompt->run.count;
    uint32_t number = take_back(&prompt->story);
    if (number != HALL_OK) {
        fprintf(prompt->io->out, "back  refused %" PRIu32 ": %s\n", number, hall_refusal_text(number, 0));
    } else if (place != 0) {
        show_back(prompt, place, count);
    }
    follow_anew(prompt);
    if (number == HALL_OK ? place == 0 || held[0] + 1u != old : old != 0) {
        differ(prompt, "the step back and the number of actions held differ");
    }
    return run_write(prompt->io, &prompt->run, prompt->story.line);
}

static enum status group(struct prompt *prompt)
{
    return print_group(prompt->io, &prompt->run, prompt->run.count);
}

static enum status quit(struct prompt *prompt)
{
    prompt->quits = 1;
    return STATUS_FINE;
}

/* Takes the name behind `save`: the rest of the line without blanks at its ends. Whether
 * there is one. */
static int take_name(const struct prompt *prompt, struct field word, char name[MAX_TYPED + 1])
{
    const char *from = word.at + word.length, *end = (const char *)prompt->line + prompt->length;
    while (from < end && is_blank((uint8_t)*from)) {
        from++;
    }
    while (from < end && is_blank((uint8_t)end[-1])) {
        end--;
    }
    size_t length = (size_t)(end - from);
    memcpy(name, from, length);
    name[length] = '\0';
    return from > word.at + word.length && strlen(name) == length;
}

/* Whether a file is the FILE, and not a run file that is to be written anew. */
static int is_own_file(const struct prompt *prompt, const char *name)
{
    int is_run = prompt->file && ends_in(prompt->file, ".run") && ends_in(name, ".run");
    return prompt->file && !is_run && is_same_file(prompt->file, name);
}

static enum status save(struct prompt *prompt, struct field word)
{
    const struct bytes *run = &prompt->run.file;
    char name[MAX_TYPED + 1];
    int named = take_name(prompt, word, name), is_run = ends_in(name, ".run");
    if (!named || !(is_run || ends_in(name, ".hall"))) {
        return wrong(prompt, "save takes a name that ends in .run or .hall");
    }
    if (is_own_file(prompt, name)) {
        return wrong(prompt, "what is saved would take the place of the file that was read");
    }
    enum status status = is_run ? write_bytes(prompt->io, name, run->at, run->length)
                                : write_bytes(prompt->io, name, prompt->story.present.hall, HALL_LENGTH);
    if (status == STATUS_FINE && is_run) {
        fprintf(prompt->io->out, "saved %s: %zu actions\n", name, prompt->run.count);
    } else if (status == STATUS_FINE) {
        fprintf(prompt->io->out, "saved %s: %d bytes\n", name, HALL_LENGTH);
    }
    return status;
}

static enum status help(struct prompt *prompt);

/* A word that is typed alone. */
struct word {
    const char *name;
    enum status (*perform)(struct prompt *prompt);
    int in_hall; /* whether it needs a hall */
    const char *gives;
};

static const struct word words_alone[] = {
    {"back", back, 1, "takes the newest accepted action back"},
    {"group", group, 1, "a row for each recorder"},
    {"help", help, 0, "this list"},
    {"quit", quit, 0, "ends it, as the end of the input does"},
};

enum { WORDS_ALONE = sizeof words_alone / sizeof words_alone[0] };

static enum status help(struct prompt *prompt)
{
    fputs("  hall N ..       the opening, which comes first\n"
          "  submit R VALUE  an action, or one of another kind: label, send, summary, form, ..\n"
          "  log R VALUE     several actions; so do exchange V, receive all V, settle, ..\n"
          "  show R          the page of a recorder\n"
          "  = ANSWER        asks what the last line must have answered\n"
          "  save NAME.run   saves the run\n"
          "  save NAME.hall  saves the hall\n",
          prompt->io->out);
    for (size_t i = 0; i < WORDS_ALONE; i++) {
        fprintf(prompt->io->out, "  %-14s  %s\n", words_alone[i].name, words_alone[i].gives);
    }
    return STATUS_FINE;
}

/* Does what a word asks for. */
static enum status perform(struct prompt *prompt, const struct word *word, size_t fields)
{
    if (fields != 1) {
        return complain(prompt->io, STATUS_USAGE, prompt->run.name, prompt->story.line, "%s takes nothing",
                        word->name);
    }
    enum status status = word->in_hall ? check_open(&prompt->story) : STATUS_FINE;
    return status == STATUS_FINE ? word->perform(prompt) : status;
}

/* Takes a line: a word of the prompt, or a line of text. */
static enum status take_typed(struct prompt *prompt)
{
    struct field fields[MAX_FIELDS];
    if (prompt->is_long) {
        return complain(prompt->io, STATUS_USAGE, prompt->run.name, prompt->story.line, "a line has at most %d bytes",
                        MAX_TYPED);
    }
    size_t count = split_fields(prompt->line, prompt->length, fields);
    for (size_t i = 0; i < WORDS_ALONE && count != 0; i++) {
        if (field_is(fields[0], words_alone[i].name)) {
            return perform(prompt, &words_alone[i], count);
        }
    }
    if (count != 0 && field_is(fields[0], "save")) {
        enum status status = check_open(&prompt->story);
        return status == STATUS_FINE ? save(prompt, fields[0]) : status;
    }
    return take_text(prompt);
}

/* -- Reading lines ----------------------------------------------------------- */

/* Writes all that was answered, and on a terminal the prompt. Whether that went well. */
static int show_prompt(struct prompt *prompt)
{
    if (prompt->is_terminal) {
        fputs("> ", prompt->io->out);
    }
    enum status status = flush_output(prompt->io);
    if (status != STATUS_FINE) {
        clearerr(prompt->io->out); /* it is told */
        raise_status(prompt, status);
    }
    return status == STATUS_FINE;
}

/* Reads a line, and puts an end behind it. Whether there was one: a line that a failed
 * read cuts is none. A line as long as no text is, as of /dev/zero, is the last. */
static int read_line(struct prompt *prompt)
{
    FILE *in = prompt->io->in;
    size_t length = 0;
    errno = 0;
    int c = getc(in), is_line = c != EOF;
    for (; c != EOF && c != '\n' && length <= MAX_TEXT; c = getc(in)) {
        if (length < MAX_TYPED) {
            prompt->line[length] = (uint8_t)c;
        }
        length++;
    }
    prompt->is_long = length > MAX_TYPED;
    prompt->quits = length > MAX_TEXT;
    prompt->length = prompt->is_long ? MAX_TYPED : length;
    prompt->line[prompt->length] = '\n';
    prompt->story.line++;
    if (ferror(in)) {
        raise_status(prompt, complain(prompt->io, STATUS_FAILED, prompt->run.name, 0, "cannot be read: %s",
                                      strerror(errno)));
    }
    return is_line && !ferror(in);
}

static void take_lines(struct prompt *prompt)
{
    int more = 1;
    while (more && show_prompt(prompt)) {
        more = read_line(prompt);
        if (more) {
            raise_status(prompt, take_typed(prompt));
            more = !prompt->quits;
        } else if (prompt->is_terminal) {
            putc('\n', prompt->io->out); /* what comes next has a line of its own */
        }
    }
}

/* -- The command ------------------------------------------------------------- */

/* Takes the actions of the run that was read, with an undo buffer. */
static enum status take_run(struct prompt *prompt)
{
    struct run *run = &prompt->run;
    const size_t count = run->count;
    enum status status = open_story(&prompt->story);
    run->count = 0;
    while (status == STATUS_FINE && run->count < count) {
        const uint32_t *action = run->actions + ACTION_WORDS * run->count;
        take_action(&prompt->story, action[K], action[R], action[A], action[B]);
    }
    if (status == STATUS_FINE) {
        follow_anew(prompt);
        status = run_write(prompt->io, run, 0);
    }
    return status;
}

/* Takes a FILE, and says how many actions it has. */
static enum status take_file(struct prompt *prompt)
{
    struct run *run = &prompt->run;
    enum status status = run_read(prompt->io, prompt->file, READ_ASKS, run);
    if (status == STATUS_FINE) {
        status = take_run(prompt);
    }
    if (status == STATUS_FINE) {
        fprintf(prompt->io->out, "%s: %zu actions\n", prompt->file, run->count);
    }
    run->note_count = 0; /* what is typed comes after them, and asks for nothing above it */
    prompt->story.last = LAST_NONE;
    return status;
}

static enum status play(struct prompt *prompt)
{
    enum status status = prompt->file ? take_file(prompt) : STATUS_FINE;
    prompt->run.name = "-";
    if (status == STATUS_FINE) {
        prompt->is_terminal = isatty(fileno(prompt->io->in));
        take_lines(prompt);
        raise_status(prompt, prompt->run.failed ? STATUS_DIFFERS : STATUS_FINE);
        status = prompt->status;
    }
    run_free(&prompt->run);
    return status;
}

enum status play_command(const struct streams *io, const struct options *options)
{
    if (options->words[0] && strcmp(options->words[0], "-") == 0) {
        return complain(io, STATUS_USAGE, "hall", 0, "play reads its lines from standard input: FILE is another one");
    }
    struct prompt *prompt = calloc(1, sizeof *prompt);
    if (!prompt) {
        return complain_memory(io, "-");
    }
    prompt->io = io;
    prompt->file = options->words[0];
    prompt->story.io = io;
    prompt->story.reading = READ_TYPED;
    prompt->story.run = &prompt->run;
    enum status status = play(prompt);
    free(prompt);
    return status;
}
