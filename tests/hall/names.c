/*
 * The tables of include/hall_names.h against the library: the word of a kind is the
 * one that the text form prints and reads, and every refusal has a text, each kind's
 * own where the header of the library tells kinds apart. The exit status is 0, or 1
 * with a line for each fault.
 */
#include "hall.h"
#include "hall_names.h"

#include <stdio.h>
#include <string.h>

static int faults;

static void check(int holds, const char *what, uint32_t number)
{
    if (!holds) {
        printf("names: %s: %u\n", what, (unsigned)number);
        faults++;
    }
}

/* Whether a line begins with a word. */
static int begins_with(const uint8_t *line, const char *word)
{
    size_t length = strlen(word);
    return memcmp(line, word, length) == 0 && line[length] == ' ';
}

/* An action is printed with the word of its kind, and the word alone is read as it. */
static void check_kind(uint32_t kind)
{
    uint8_t line[HALL_MAX_LINE], words[HALL_ANSWER_LENGTH];
    const char *word = hall_kind_word(kind);
    uint32_t is_kind = kind >= HALL_SUBMIT && kind <= HALL_DELIVER;
    check(hall_print_action(kind, 0, 0, 0, line, sizeof line, words, sizeof words) == HALL_OK, "not printed", kind);
    check(begins_with(line, word), "printed with another word", kind);
    check(hall_parse_line((const uint8_t *)word, strlen(word), 0, words, sizeof words) == HALL_OK, "not read", kind);
    check(hall_word(words, HALL_LINE_FIRST) == (is_kind ? kind : HALL_FIRST_RAW), "read as another kind", kind);
}

static const uint32_t refusals[] = {
    HALL_REFUSED_KIND,    HALL_REFUSED_RECORDER,    HALL_REFUSED_UNUSED,      HALL_REFUSED_VIEW_NUMBER,
    HALL_REFUSED_SET,     HALL_REFUSED_OPENING,     HALL_REFUSED_SHORT,       HALL_REFUSED_FILE,
    HALL_REFUSED_VOTES,   HALL_REFUSED_BYTES,       HALL_REFUSED_TOO_MANY,    HALL_REFUSED_NOT_RISING,
    HALL_REFUSED_NOT_FORMED, HALL_REFUSED_NO_MEMBER, HALL_REFUSED_NOT_ABOVE,  HALL_REFUSED_PHASE,
    HALL_REFUSED_NOTHING, HALL_REFUSED_NOT_YET,     HALL_REFUSED_FULL,        HALL_REFUSED_NOT_PRIMARY,
    HALL_REFUSED_UNDO,
};

static int is_refusal(uint32_t number)
{
    for (size_t i = 0; i < sizeof refusals / sizeof refusals[0]; i++) {
        if (refusals[i] == number) {
            return 1;
        }
    }
    return 0;
}

static int differ(uint32_t number, uint32_t one, uint32_t other)
{
    return strcmp(hall_refusal_text(number, one), hall_refusal_text(number, other)) != 0;
}

int main(void)
{
    for (uint32_t kind = 0; kind <= HALL_DELIVER + 1; kind++) {
        check_kind(kind);
    }
    for (uint32_t number = 0; number < 100; number++) {
        for (uint32_t kind = 0; kind <= HALL_DELIVER + 1; kind++) {
            int known = strcmp(hall_refusal_text(number, kind), hall_refusal_text(0, 0)) != 0;
            check(known == is_refusal(number), "a text for what is no refusal, or none", number);
        }
    }
    check(differ(HALL_REFUSED_TOO_MANY, HALL_SUBMIT, HALL_FORM), "one text for two kinds", HALL_REFUSED_TOO_MANY);
    check(differ(HALL_REFUSED_NOTHING, HALL_CONFIRM, HALL_DELIVER), "one text for two kinds", HALL_REFUSED_NOTHING);
    check(differ(HALL_REFUSED_NOT_YET, HALL_SAFE, HALL_CONFIRM), "one text for two kinds", HALL_REFUSED_NOT_YET);
    check(differ(HALL_REFUSED_FULL, HALL_LABEL, HALL_PLACE), "one text for two kinds", HALL_REFUSED_FULL);
    check(strcmp(hall_phase_name(HALL_PHASE_COLLECT), "collect") == 0, "the name of a phase", HALL_PHASE_COLLECT);
    check(strcmp(hall_case_word(HALL_CASE_FROM), "from") == 0, "the word of an answer", HALL_CASE_FROM);
    return faults != 0;
}
