/*
 * hall, the bench tool: what its files share.
 *
 * The tool judges nothing about a hall or a run. Every refusal, answer, page,
 * listing and line of text is a call of the library; the tool adds words.
 * It has no state of its own between two calls of hall_main.
 */
#ifndef HL3_TOOL_TOOL_H
#define HL3_TOOL_TOOL_H

#include "hall.h"
#include "hall_names.h"

#include <stddef.h>
#include <stdint.h>
#include <stdio.h>

/* Exit statuses. */
enum status {
    STATUS_FINE = 0,
    STATUS_DIFFERS = 1, /* a refused action that no `=` asked for, a difference, a failed `=` */
    STATUS_USAGE = 2,   /* the command line, or a line of text that does not parse */
    STATUS_REFUSED = 3, /* the library refuses a file or a hall */
    STATUS_FAILED = 4   /* input or output failed, or there is no memory */
};

/* The streams that a command reads and writes. */
struct streams {
    FILE *in, *out, *err;
};

/* The program: argv[0] is its name. The exit status. */
enum status hall_main(int argc, char **argv, const struct streams *io);

/* -- Errors: errors.c ---------------------------------------------------- */

/* Says `file:line: words` in one line on the error stream, `file: words` for
 * line 0. Gives the status back. */
#ifdef __GNUC__
__attribute__((format(printf, 5, 6)))
#endif
enum status complain(const struct streams *io, enum status status, const char *file, unsigned long line,
                     const char *words, ...);

/* Says that the library refused a file or a hall. */
enum status complain_refused(const struct streams *io, const char *file, unsigned long line, uint32_t number);

enum status complain_memory(const struct streams *io, const char *file);

/* -- Files: files.c ------------------------------------------------------ */

/* A text has at most so many bytes. */
#define MAX_TEXT ((size_t)16 << 20)

struct bytes {
    uint8_t *at; /* freed by who asked for them */
    size_t length;
};

/* Reads a file, `-` for the input stream, up to `most` bytes. */
enum status read_bytes(const struct streams *io, const char *name, size_t most, struct bytes *bytes);

/* Writes a file, `-` for the output stream. A regular file is there whole or
 * stays as it was. */
enum status write_bytes(const struct streams *io, const char *name, const uint8_t *bytes, size_t length);

int ends_in(const char *name, const char *ending);

/* Whether two names are of one regular file. */
int is_same_file(const char *one, const char *other);

/* Writes all that is still to be written to the output stream. */
enum status flush_output(const struct streams *io);

/* -- Runs: run.c --------------------------------------------------------- */

/* An opening as a run file has it. */
struct opening {
    uint32_t n, founders, third, votes[HALL_RECORDERS];
};

/* Words of an action. */
enum { K, R, A, B, ACTION_WORDS };

/* What a text has beside actions. */
enum note_kind {
    NOTE_SHOW,  /* a page is to be shown */
    NOTE_SETTLE /* a settle that has no action: it was refused, or no step was left */
};

struct note {
    enum note_kind kind;
    size_t after;       /* it comes after so many actions */
    unsigned long line; /* of the text */
    uint32_t number;    /* the recorder to show, or the refusal, HALL_OK if no step was left */
    int asked;          /* whether a `=` asked for the refusal */
};

/* One action more than a run file holds, so that the library can refuse it. */
enum { MAX_RUN = HALL_MAX_ACTIONS + 1 };

/* A run: an opening and actions, read from a run file or unfolded from a text. */
struct run {
    const char *name; /* of the file, as it was given */
    struct opening opening;
    uint32_t actions[ACTION_WORDS * MAX_RUN];
    unsigned char asked[MAX_RUN]; /* for each action, whether a `=` asked for its refusal */
    size_t count;                 /* how many actions */
    struct note *notes;
    size_t note_count, note_room;
    int failed;        /* whether a `=` failed, or a settle did not count its steps */
    struct bytes file; /* the run file */
};

/* How a run is read. */
enum reading {
    READ_PLAIN, /* pass over what a run file has no place for */
    READ_ASKS,  /* judge every `=` */
    READ_TYPED  /* the same of what is typed at a prompt, and tell of a settle without steps */
};

/* Reads the run of a file: a run file if the name ends in .run, else a text.
 * run_free is due whatever the status; where the library refuses a run file, its
 * bytes are in run->file all the same. */
enum status run_read(const struct streams *io, const char *name, enum reading reading, struct run *run);

/* The same of a text with any name. */
enum status run_read_text(const struct streams *io, const char *name, enum reading reading, struct run *run);

void run_free(struct run *run);

/* Writes the run file of a run into run->file. The line is the last one of the text, 0
 * for a whole one. */
enum status run_write(const struct streams *io, struct run *run, unsigned long line);

/* Adds an action, or a note. Whether there was room for it. */
int run_add_action(struct run *run, const uint32_t *action);
int run_add_note(struct run *run, struct note note);

/* A hall that goes through a run. */
struct walk {
    const struct run *run;
    size_t done;                        /* actions taken */
    uint32_t number;                    /* refusal of the last one, HALL_OK if it was accepted */
    uint8_t answer[HALL_ANSWER_LENGTH]; /* answer of the last one, if it was accepted */
    uint8_t hall[HALL_LENGTH];
};

/* Opens a hall as an opening says. HALL_OK, or the number of a refusal. */
uint32_t open_hall(uint8_t *hall, const struct opening *opening);

/* Opens the hall of a run. HALL_OK, or the number of a refusal. */
uint32_t walk_open(struct walk *walk, const struct run *run);

/* The action that comes next, and takes it. There is one. */
const uint32_t *walk_next(const struct walk *walk);
void walk_step(struct walk *walk);

/* -- Texts: story.c, fields.c ---------------------------------------------- */

/* Unfolds a text into the run's opening, actions and notes. */
enum status story_read(const struct streams *io, const struct bytes *text, enum reading reading, struct run *run);

/* Fields of a line, parted by blanks; they end at a remark. */
enum { MAX_FIELDS = 8 };

struct field {
    const char *at; /* not closed by a zero byte */
    size_t length;
};

/* Splits a line. How many fields it has, those past MAX_FIELDS counted as one
 * more. */
size_t split_fields(const uint8_t *line, size_t length, struct field *fields);

int is_blank(uint8_t c);

int field_is(struct field field, const char *word);

/* A number below 2^32, in digits alone. Whether the field is one. */
int field_number(struct field field, uint32_t *number);

/* -- Words: words.c ------------------------------------------------------ */

/* Bytes that suffice for any of these, for what differs on two pages, and for a line
 * of a trace, the zero byte at the end included. */
enum { MAX_WORDS = 200, MAX_CHANGES = 700, MAX_TRACE = MAX_CHANGES + 2 * MAX_WORDS + 40 };

/* The line of an action or of an opening without its end, as the library prints it. */
void action_words(const uint32_t *action, char words[MAX_WORDS]);
void opening_words(const struct opening *opening, char words[MAX_WORDS]);

/* An answer as the listing has it. */
void answer_listed(uint32_t number, const uint8_t *answer, char words[MAX_WORDS]);

/* The same with the reason of a refusal, and with the fields of a summary in words. */
void answer_words(uint32_t kind, uint32_t number, const uint8_t *answer, char words[MAX_WORDS]);

/* A set as {1,3}. */
void set_words(uint32_t set, char words[MAX_WORDS]);

int is_member(uint32_t set, uint32_t r);

/* -- Pages: page.c ------------------------------------------------------- */

/* The fields that differ on two pages, as `name before -> after`, a comma between
 * them. How many they are. */
size_t changes_words(const uint8_t *before, const uint8_t *after, const char *between, char words[MAX_CHANGES]);

/* The page of a recorder; zeros if the hall has no such recorder. */
void page_of(const uint8_t *hall, uint32_t r, uint8_t page[HALL_ANSWER_LENGTH]);

/* Shows the page of a recorder with its log. HALL_OK, or the number of a refusal. */
uint32_t print_page(FILE *to, const uint8_t *hall, uint32_t r);

/* How many entries of its order a recorder has confirmed, and delivered. */
uint32_t page_confirmed(const uint8_t *page);
uint32_t page_delivered(const uint8_t *page);

/* -- Traces: trace.c ------------------------------------------------------ */

/* Takes the next action of a walk. Its line of a trace: number, action, answer, and
 * what changed on the recorder's page. */
void walk_trace(struct walk *walk, char words[MAX_TRACE]);

/* Shows the page that a note asks for, or tells of a settle that was refused. */
enum status print_note(const struct streams *io, const struct run *run, const uint8_t *hall, const struct note *note);

/* -- Groups: group.c ------------------------------------------------------- */

/* A row for each recorder, after the first actions of a run. */
enum status print_group(const struct streams *io, const struct run *run, size_t actions);

/* -- Entries of a run: lists.c ------------------------------------------- */

struct entry {
    uint32_t view, seq, sender, value; /* view 0: not labelled */
};

struct list {
    size_t length;
    struct entry entries[HALL_MAX_ENTRIES];
};

/* The entries of each recorder, recorder 1 first, from answers and pages alone. */
struct lists {
    uint32_t n;
    struct list submitted[HALL_RECORDERS];
    struct list delivered[HALL_RECORDERS];
    struct list confirmed[HALL_RECORDERS];
    struct list order[HALL_RECORDERS];
    uint32_t highest[HALL_RECORDERS]; /* the highest primary */
    size_t unlike; /* the first deliver whose answer is not what the page showed, or 0 */
};

/* Gathers them from the first actions of a run. HALL_OK, or the number of a refusal. */
uint32_t lists_gather(struct lists *lists, const struct run *run, size_t actions);

/* How many entries two lists have in common, from the first on. */
size_t list_agrees(const struct list *one, const struct list *other);
int list_begins(const struct list *one, const struct list *other);

int same_entry(const struct entry *one, const struct entry *other);

/* The entry that a page shows. */
struct entry page_entry(const uint8_t *page);

/* An entry as label and value. */
void entry_words(const struct entry *entry, char words[MAX_WORDS]);

/* -- Commands ------------------------------------------------------------ */

/* What the command line says after the command's name. */
struct options {
    const char *words[2]; /* files, and of where a value; NULL where there is none */
    const char *output;   /* -o */
    int refused, listing, why, has_only, has_at, has_from, has_to;
    uint32_t only, at, from, to;
};

/* Whether so many actions may be asked for of a run; else it says so. */
enum status check_count(const struct streams *io, const struct run *run, const char *option, uint32_t count);

enum status make_command(const struct streams *io, const struct options *options);
enum status text_command(const struct streams *io, const struct options *options);
enum status trace_command(const struct streams *io, const struct options *options);
enum status group_command(const struct streams *io, const struct options *options);
enum status diff_command(const struct streams *io, const struct options *options);
enum status check_command(const struct streams *io, const struct options *options);
enum status draw_command(const struct streams *io, const struct options *options);
enum status where_command(const struct streams *io, const struct options *options);
enum status bytes_command(const struct streams *io, const struct options *options);
enum status play_command(const struct streams *io, const struct options *options);

#endif
