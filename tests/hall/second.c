/* The text form of a run a second time: second.h. */
#include "second.h"

#include <stdio.h>
#include <string.h>

static const char *const kind_words[] = {
    "", "submit", "label", "send", "summary", "form", "enter", "place", "receive", "safe", "confirm", "deliver",
};

static void put_word(uint8_t *words, size_t i, uint32_t value)
{
    for (size_t k = 0; k < 4; k++) {
        words[4 * i + k] = (uint8_t)(value >> (8 * k));
    }
}

/* -- Printing ------------------------------------------------------------ */

/* A line that is being made, longer than any that is printed. */
struct line {
    char text[400];
    size_t length;
};

static void add(struct line *line, const char *text)
{
    line->length += (size_t)snprintf(line->text + line->length, sizeof line->text - line->length, "%s", text);
}

static void add_number(struct line *line, uint32_t number)
{
    char digits[16];
    snprintf(digits, sizeof digits, " %lu", (unsigned long)number);
    add(line, digits);
}

static void add_set(struct line *line, uint32_t set)
{
    const char *before = " {";
    for (uint32_t r = 1; r <= HALL_RECORDERS; r++) {
        if (set >> (r - 1) & 1) {
            char member[8];
            snprintf(member, sizeof member, "%s%u", before, (unsigned)r);
            add(line, member);
            before = ",";
        }
    }
    add(line, set == 0 ? " {}" : "}");
}

static uint32_t give_line(struct line *line, uint8_t *text, size_t text_len, uint8_t *words, size_t words_len)
{
    add(line, "\n");
    if (text_len < line->length || words_len < HALL_ANSWER_LENGTH) {
        return HALL_REFUSED_SHORT;
    }
    memcpy(text, line->text, line->length);
    memset(words, 0, HALL_ANSWER_LENGTH);
    put_word(words, HALL_TEXT_LENGTH, (uint32_t)line->length);
    return HALL_OK;
}

/* Whether a hall of n recorders may have these votes. */
static int may_vote(uint32_t n, const uint32_t votes[HALL_RECORDERS])
{
    uint32_t any = 0;
    for (size_t i = 0; i < HALL_RECORDERS; i++) {
        if (votes[i] > HALL_MAX_VOTE || (i >= n && votes[i] != 0)) {
            return 0;
        }
        any |= votes[i];
    }
    return any != 0;
}

static uint32_t opening_refusal(uint32_t n, uint32_t founders, uint32_t third, const uint32_t votes[HALL_RECORDERS])
{
    if (n < 1 || n > HALL_RECORDERS || founders >> n != 0) {
        return HALL_REFUSED_OPENING;
    }
    if (third == 1 && !may_vote(n, votes)) {
        return HALL_REFUSED_VOTES;
    }
    return third > 1 ? HALL_REFUSED_FILE : HALL_OK;
}

uint32_t second_print_opening(uint32_t n, uint32_t founders, uint32_t third, const uint32_t votes[HALL_RECORDERS],
                              uint8_t *text, size_t text_len, uint8_t *words, size_t words_len)
{
    struct line line = {.length = 0};
    uint32_t number = opening_refusal(n, founders, third, votes);
    if (number != HALL_OK) {
        return number;
    }
    add(&line, "hall");
    add_number(&line, n);
    if (founders == (1u << n) - 1) {
        add(&line, " founders whole");
    } else if (founders != 0) {
        add(&line, " founders");
        add_set(&line, founders);
    }
    if (third == 1) {
        add(&line, " votes");
        for (size_t i = 0; i < HALL_RECORDERS; i++) {
            add_number(&line, votes[i]);
        }
    }
    return give_line(&line, text, text_len, words, words_len);
}

/* Adds the line of an action's kind. Whether it has one. */
static int add_kind(struct line *line, uint32_t k, uint32_t r, uint32_t a, uint32_t b)
{
    if (k < HALL_SUBMIT || k > HALL_DELIVER) {
        return 0;
    }
    add(line, kind_words[k]);
    switch (k) {
    case HALL_SUBMIT:
    case HALL_ENTER:
    case HALL_PLACE:
        add_number(line, r);
        add_number(line, a);
        return b == 0;
    case HALL_FORM:
        add_number(line, a);
        add_set(line, b);
        return r == 0 && b < 256;
    default:
        add_number(line, r);
        return a == 0 && b == 0;
    }
}

uint32_t second_print_action(const uint32_t action[4], uint8_t *text, size_t text_len, uint8_t *words,
                             size_t words_len)
{
    struct line line = {.length = 0};
    if (!add_kind(&line, action[0], action[1], action[2], action[3])) {
        line.length = 0;
        add(&line, "raw");
        for (size_t i = 0; i < 4; i++) {
            add_number(&line, action[i]);
        }
    }
    return give_line(&line, text, text_len, words, words_len);
}

/* -- Reading ------------------------------------------------------------- */

struct field {
    const uint8_t *at;
    size_t length;
};

/* The longest line has so many fields: an opening with founders and votes. */
enum { MOST_FIELDS = 13 };

static int is_blank(uint8_t c)
{
    return c == ' ' || c == '\t' || c == '\r';
}

/* The fields of a line, the first MOST_FIELDS of them. How many there are, one
 * more than that at most. */
static size_t split(const uint8_t *line, size_t length, struct field *fields)
{
    size_t count = 0, i = 0;
    while (i < length && line[i] != '#') {
        if (is_blank(line[i])) {
            i++;
            continue;
        }
        size_t from = i;
        while (i < length && line[i] != '#' && !is_blank(line[i])) {
            i++;
        }
        if (count == MOST_FIELDS) {
            return MOST_FIELDS + 1;
        }
        fields[count++] = (struct field){line + from, i - from};
    }
    return count;
}

static int is(struct field field, const char *word)
{
    return field.length == strlen(word) && memcmp(field.at, word, field.length) == 0;
}

static int number_of(struct field field, uint32_t *value)
{
    uint64_t sum = 0;
    for (size_t i = 0; i < field.length; i++) {
        if (field.at[i] < '0' || field.at[i] > '9') {
            return 0;
        }
        sum = 10 * sum + (uint64_t)(field.at[i] - '0');
        if (sum > UINT32_MAX) {
            return 0;
        }
    }
    *value = (uint32_t)sum;
    return field.length != 0;
}

/* Fields that are all numbers. */
static int numbers_of(const struct field *fields, size_t count, uint32_t *values)
{
    for (size_t i = 0; i < count; i++) {
        if (!number_of(fields[i], &values[i])) {
            return 0;
        }
    }
    return 1;
}

/* A set: between its braces digits at odd places and commas at even ones. */
static int set_of(struct field field, uint32_t *set)
{
    *set = 0;
    if (is(field, "{}")) {
        return 1;
    }
    if (field.length % 2 == 0 || field.length < 3 || field.at[0] != '{' || field.at[field.length - 1] != '}') {
        return 0;
    }
    for (size_t i = 1; i + 1 < field.length; i++) {
        uint8_t c = field.at[i];
        if (i % 2 == 0 ? c != ',' : c < '1' || c > '8' || *set >> (c - '1') & 1) {
            return 0;
        }
        *set |= i % 2 == 0 ? 0 : 1u << (c - '1');
    }
    return 1;
}

static int founders_of(struct field field, uint32_t n, uint32_t *founders)
{
    if (is(field, "whole")) {
        *founders = n < HALL_RECORDERS ? (1u << n) - 1 : 255;
        return 1;
    }
    return set_of(field, founders) && *founders != 0;
}

/* The words of an opening: N, founders, third, votes. Whether it is one. */
static int opening(const struct field *fields, size_t count, uint32_t found[11])
{
    size_t i = 2;
    memset(found, 0, 11 * sizeof *found);
    if (count < 2 || !number_of(fields[1], &found[0])) {
        return 0;
    }
    if (i < count && is(fields[i], "founders")) {
        if (i + 1 == count || !founders_of(fields[i + 1], found[0], &found[1])) {
            return 0;
        }
        i += 2;
    }
    if (i < count && is(fields[i], "votes")) {
        found[2] = 1;
        return count == i + 9 && numbers_of(fields + i + 1, HALL_RECORDERS, found + 3);
    }
    return i == count;
}

/* The words of an action by its first word. Whether it is one. */
static int action(uint32_t first, const struct field *fields, size_t count, uint32_t found[4])
{
    memset(found, 0, 4 * sizeof *found);
    found[0] = first;
    switch (first) {
    case HALL_FIRST_RAW:
        return count == 5 && numbers_of(fields + 1, 4, found);
    case HALL_SUBMIT:
    case HALL_ENTER:
    case HALL_PLACE:
        return count == 3 && numbers_of(fields + 1, 2, found + 1);
    case HALL_FORM:
        return count == 3 && number_of(fields[1], &found[2]) && set_of(fields[2], &found[3]);
    default:
        return count == 2 && number_of(fields[1], &found[1]);
    }
}

static uint32_t first_word(struct field field)
{
    for (uint32_t k = HALL_SUBMIT; k <= HALL_DELIVER; k++) {
        if (is(field, kind_words[k])) {
            return k;
        }
    }
    return is(field, "raw") ? HALL_FIRST_RAW : is(field, "hall") ? HALL_FIRST_HALL : HALL_FIRST_NONE;
}

/* Puts the case of a line and the words of the case. */
static void put_line(uint8_t *words, const struct field *fields, size_t count)
{
    uint32_t first = first_word(fields[0]), line_case = HALL_LINE_WRONG, found[11] = {first};
    size_t put = 1;
    if (count <= MOST_FIELDS && first == HALL_FIRST_HALL && opening(fields, count, found)) {
        line_case = HALL_LINE_OPENING;
        put = 11;
    } else if (count <= MOST_FIELDS && first != HALL_FIRST_HALL && first != HALL_FIRST_NONE &&
               action(first, fields, count, found)) {
        line_case = HALL_LINE_ACTION;
        put = 4;
    } else {
        found[0] = first;
    }
    put_word(words, HALL_LINE_CASE, line_case);
    for (size_t i = 0; i < put; i++) {
        put_word(words, HALL_LINE_NEXT_HIGH + 1 + i, found[i]);
    }
}

uint32_t second_parse_line(const uint8_t *text, size_t text_len, size_t at, uint8_t *words, size_t words_len)
{
    struct field fields[MOST_FIELDS];
    size_t end = at, count = 0;
    if (words_len < HALL_ANSWER_LENGTH) {
        return HALL_REFUSED_SHORT;
    }
    while (end < text_len && text[end] != 10) {
        end++;
    }
    if (at < text_len) {
        count = split(text + at, end - at, fields);
    }
    size_t next = end < text_len ? end + 1 : end;
    memset(words, 0, HALL_ANSWER_LENGTH);
    put_word(words, HALL_LINE_NEXT, (uint32_t)next);
    put_word(words, HALL_LINE_NEXT_HIGH, (uint32_t)((uint64_t)next >> 32));
    if (count != 0) {
        put_line(words, fields, count);
    }
    return HALL_OK;
}
