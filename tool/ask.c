/* `=`: what an answer must have been, in the words of the listing. */
#include "story.h"

#include <string.h>

/* Whether a field is a label: three numbers with dots between. */
static int is_label(struct field field)
{
    uint32_t number;
    size_t from = 0, parts = 0;
    for (size_t i = 0; i <= field.length; i++) {
        if (i == field.length || field.at[i] == '.') {
            if (!field_number((struct field){field.at + from, i - from}, &number)) {
                return 0;
            }
            from = i + 1;
            parts++;
        }
    }
    return parts == 3;
}

/* Whether fields are so many numbers. */
static int are_numbers(const struct field *fields, size_t count, size_t wanted)
{
    uint32_t number;
    for (size_t i = 0; i < count; i++) {
        if (!field_number(fields[i], &number)) {
            return 0;
        }
    }
    return count == wanted;
}

int is_answer(const struct field *fields, size_t count)
{
    if (count == 0) {
        return 0;
    }
    const struct field *rest = fields + 1;
    if (field_is(fields[0], "refused")) {
        return are_numbers(rest, count - 1, 1);
    }
    if (field_is(fields[0], hall_case_word(HALL_CASE_ENTRY))) {
        return count == 3 && is_label(rest[0]) && are_numbers(rest + 1, 1, 1);
    }
    if (field_is(fields[0], hall_case_word(HALL_CASE_SUMMARY))) {
        return are_numbers(rest, count - 1, 5);
    }
    if (field_is(fields[0], hall_case_word(HALL_CASE_FROM))) {
        return are_numbers(rest, count - 1, 2);
    }
    return count == 1 && field_is(fields[0], hall_case_word(HALL_CASE_DONE));
}

/* Fields with a blank between them; what is too long for any answer is cut. */
static void join_fields(const struct field *fields, size_t count, char words[MAX_WORDS])
{
    size_t length = 0;
    for (size_t i = 0; i < count; i++) {
        int cut = fields[i].length > MAX_WORDS ? MAX_WORDS : (int)fields[i].length;
        int more = snprintf(words + length, MAX_WORDS - length, "%s%.*s", i == 0 ? "" : " ", cut, fields[i].at);
        length += (size_t)more;
        if (length >= MAX_WORDS) {
            return;
        }
    }
}

/* Marks the refusal that a `=` asks for. */
static void mark_asked(struct story *story)
{
    if (story->last == LAST_SETTLE) {
        story->run->notes[story->settle].asked = 1;
    } else if (story->last == LAST_ACTION) {
        story->run->asked[story->run->count - 1] = 1;
    }
}

/* Compares the answer above with what is asked for. */
static void compare_answer(struct story *story, const char *asked)
{
    if (strcmp(asked, story->answered) != 0) {
        complain(story->io, STATUS_DIFFERS, story->run->name, story->line, "asked for: %s; answered: %s", asked,
                 story->answered);
        story->run->failed = 1;
    }
}

enum status take_ask(struct story *story, const struct field *fields, size_t count)
{
    char asked[MAX_WORDS];
    if (story->last == LAST_NONE) {
        return complain(story->io, STATUS_USAGE, story->run->name, story->line, "= has no action above it");
    }
    if (field_is(fields[0], "refused")) {
        mark_asked(story);
    }
    if (story->reading != READ_PLAIN) {
        join_fields(fields, count, asked);
        compare_answer(story, asked);
    }
    return STATUS_FINE;
}
