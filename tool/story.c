/*
 * Texts: lines of the text form, read by the library, and the words that the tool
 * adds to it. A hall goes along, so that those can be unfolded into actions.
 */
#include "story.h"

#include <inttypes.h>
#include <stdlib.h>

static enum status wrong(const struct story *story, const char *words)
{
    return complain(story->io, STATUS_USAGE, story->run->name, story->line, "%s", words);
}

/* -- Wrong lines --------------------------------------------------------- */

/* What a line of the text form takes, by the word that it begins with. */
static const struct hall_name form_usages[] = {
    {HALL_FIRST_HALL,
     "hall takes a number of recorders, then if wanted founders and whole or a set with a member, then if wanted votes "
     "and eight numbers"},
    {HALL_SUBMIT, "submit takes a recorder and a value"},
    {HALL_LABEL, "label takes a recorder"},
    {HALL_SEND_ENTRY, "send takes a recorder"},
    {HALL_SEND_SUMMARY, "summary takes a recorder"},
    {HALL_FORM, "form takes a view number and a set such as {1,3}"},
    {HALL_ENTER, "enter takes a recorder and a view number"},
    {HALL_PLACE, "place takes a recorder and a view number"},
    {HALL_RECEIVE, "receive takes a recorder, or all and a view number"},
    {HALL_SAFE, "safe takes a recorder, or all and a view number"},
    {HALL_CONFIRM, "confirm takes a recorder, or all and a view number"},
    {HALL_DELIVER, "deliver takes a recorder, or all and a view number"},
    {HALL_FIRST_RAW, "raw takes four numbers"},
};

/* The same of the words that the tool adds. */
struct usage {
    const char *word, *takes;
};

static const struct usage tool_usages[] = {
    {"log", "log takes a recorder and a value"},
    {"exchange", "exchange takes a view number"},
    {"settle", "settle takes nothing"},
    {"show", "show takes a recorder"},
    {"=", "= takes an answer as the listing has it: ok, entry, summary or from with its fields, or refused and a number"},
};

/* A field to be shown: the first bytes of a long one, a zero byte as a question
 * mark. */
static void show_field(struct field field, char words[MAX_WORDS])
{
    enum { SHOWN = 40 };
    size_t length = field.length < SHOWN ? field.length : SHOWN;
    for (size_t i = 0; i < length; i++) {
        words[i] = field.at[i] == '\0' ? '?' : field.at[i];
    }
    snprintf(words + length, MAX_WORDS - length, "%s", field.length > SHOWN ? ".." : "");
}

/* Says why a line cannot be read. */
static enum status wrong_line(const struct story *story, uint32_t first, struct field field)
{
    char word[MAX_WORDS];
    const char *takes = hall_find_name(form_usages, sizeof form_usages / sizeof form_usages[0], first, NULL);
    for (size_t i = 0; i < sizeof tool_usages / sizeof tool_usages[0] && !takes; i++) {
        takes = field_is(field, tool_usages[i].word) ? tool_usages[i].takes : NULL;
    }
    if (takes) {
        return wrong(story, takes);
    }
    show_field(field, word);
    return complain(story->io, STATUS_USAGE, story->run->name, story->line, "no line begins with the word %s", word);
}

/* -- Words of the tool --------------------------------------------------- */

/* Whether the word of a kind may be followed by `all`. */
static int has_all(uint32_t kind)
{
    return kind == HALL_RECEIVE || kind == HALL_SAFE || kind == HALL_CONFIRM || kind == HALL_DELIVER;
}

/* Takes `receive all V` and the like, or with kind 0 `exchange V`. */
static enum status take_in_view(struct story *story, uint32_t kind, uint32_t number)
{
    const struct view *view = find_view(story, number);
    if (!view) {
        return complain(story->io, STATUS_USAGE, story->run->name, story->line, "view %" PRIu32 " is not formed",
                        number);
    }
    if (kind == 0) {
        take_exchange(story, view);
    } else {
        take_all(story, kind, view);
    }
    return STATUS_FINE;
}

static enum status take_show(struct story *story, uint32_t r)
{
    struct note note = {NOTE_SHOW, story->run->count, story->line, r, 0};
    return run_add_note(story->run, note) ? STATUS_FINE : complain_memory(story->io, story->run->name);
}

/* Takes a line that is none of the text form: with a word of the tool, or wrong.
 * `first` is what the library says of its first word. */
static enum status take_fields(struct story *story, uint32_t first, const struct field *fields, size_t count)
{
    uint32_t x, y;
    if (has_all(first) && count == 3 && field_is(fields[1], "all") && field_number(fields[2], &x)) {
        return take_in_view(story, first, x);
    }
    if (field_is(fields[0], "exchange") && count == 2 && field_number(fields[1], &x)) {
        return take_in_view(story, 0, x);
    }
    if (field_is(fields[0], "log") && count == 3 && field_number(fields[1], &x) && field_number(fields[2], &y)) {
        take_log(story, x, y);
        return STATUS_FINE;
    }
    if (field_is(fields[0], "settle") && count == 1) {
        return take_settle(story);
    }
    if (field_is(fields[0], "show") && count == 2 && field_number(fields[1], &x)) {
        return take_show(story, x);
    }
    if (field_is(fields[0], "=") && count <= MAX_FIELDS && is_answer(fields + 1, count - 1)) {
        return take_ask(story, fields + 1, count - 1);
    }
    return wrong_line(story, first, fields[0]);
}

/* -- Lines --------------------------------------------------------------- */

enum status open_story(struct story *story)
{
    uint32_t number = open_hall(story->present.hall, &story->run->opening);
    if (number != HALL_OK) {
        return complain_refused(story->io, story->run->name, story->line, number);
    }
    begin_views(story);
    story->is_open = 1;
    return STATUS_FINE;
}

enum status check_open(const struct story *story)
{
    return story->is_open ? STATUS_FINE : wrong(story, "a text begins with an opening, such as: hall 3");
}

/* Opens the hall as a line says. */
static enum status take_opening(struct story *story, const uint8_t *words)
{
    struct opening *opening = &story->run->opening;
    if (story->is_open) {
        return wrong(story, "a run has one opening");
    }
    opening->n = hall_word(words, HALL_LINE_SIZE);
    opening->founders = hall_word(words, HALL_LINE_FOUNDERS);
    opening->third = hall_word(words, HALL_LINE_THIRD);
    for (size_t i = 0; i < HALL_RECORDERS; i++) {
        opening->votes[i] = hall_word(words, HALL_LINE_VOTES + i);
    }
    return open_story(story);
}

/* Takes a line that the library does not read. */
static enum status take_other(struct story *story, const uint8_t *line, size_t length, uint32_t first)
{
    struct field fields[MAX_FIELDS];
    size_t count = split_fields(line, length, fields);
    if (first != HALL_FIRST_HALL && check_open(story) != STATUS_FINE) {
        return STATUS_USAGE;
    }
    return count == 0 ? wrong(story, "not understood") : take_fields(story, first, fields, count);
}

/* Takes a line, of which the library has said what it is. */
static enum status take_line(struct story *story, const uint8_t *line, size_t length, const uint8_t *words)
{
    switch (hall_word(words, HALL_LINE_CASE)) {
    case HALL_LINE_BLANK:
        return STATUS_FINE;
    case HALL_LINE_OPENING:
        return take_opening(story, words);
    case HALL_LINE_ACTION:
        if (check_open(story) != STATUS_FINE) {
            return STATUS_USAGE;
        }
        take_action(story, hall_word(words, HALL_LINE_K), hall_word(words, HALL_LINE_R), hall_word(words, HALL_LINE_A),
                    hall_word(words, HALL_LINE_B));
        return STATUS_FINE;
    default:
        return take_other(story, line, length, hall_word(words, HALL_LINE_FIRST));
    }
}

enum status take_line_at(struct story *story, const struct bytes *text, size_t *at)
{
    uint8_t words[HALL_ANSWER_LENGTH];
    size_t from = *at;
    hall_parse_line(text->at, text->length, from, words, sizeof words);
    size_t next = hall_offset(words, HALL_LINE_NEXT);
    if (next <= from || next > text->length) {
        return wrong(story, "the library does not say where the line ends");
    }
    size_t end = text->at[next - 1] == '\n' ? next - 1 : next;
    *at = next;
    return take_line(story, text->at + from, end - from, words);
}

static enum status take_lines(struct story *story, const struct bytes *text)
{
    enum status status = STATUS_FINE;
    size_t at = 0;
    while (at < text->length && status == STATUS_FINE && !story->is_full) {
        story->line++;
        status = take_line_at(story, text, &at);
    }
    if (status == STATUS_FINE && !story->is_open) {
        story->line = 0;
        return check_open(story);
    }
    return status;
}

enum status story_read(const struct streams *io, const struct bytes *text, enum reading reading, struct run *run)
{
    struct story *story = calloc(1, sizeof *story);
    if (!story) {
        return complain_memory(io, run->name);
    }
    story->io = io;
    story->reading = reading;
    story->run = run;
    enum status status = take_lines(story, text);
    free(story);
    return status;
}
