/* Actions, openings, answers and sets in words. */
#include "tool.h"

#include <inttypes.h>
#include <string.h>

/* -- Lines of the text form ---------------------------------------------- */

/* A line that the library printed, without its end. */
static void take_line(uint32_t number, const uint8_t *line, const uint8_t *printed, char words[MAX_WORDS])
{
    size_t length = number == HALL_OK ? hall_word(printed, HALL_TEXT_LENGTH) : 0;
    if (length == 0 || length > HALL_MAX_LINE) {
        snprintf(words, MAX_WORDS, "not printed (%" PRIu32 ")", number);
        return;
    }
    memcpy(words, line, length - 1);
    words[length - 1] = '\0';
}

void action_words(const uint32_t *action, char words[MAX_WORDS])
{
    uint8_t line[HALL_MAX_LINE], printed[HALL_ANSWER_LENGTH];
    uint32_t number =
        hall_print_action(action[K], action[R], action[A], action[B], line, sizeof line, printed, sizeof printed);
    take_line(number, line, printed, words);
}

void opening_words(const struct opening *opening, char words[MAX_WORDS])
{
    const uint32_t *votes = opening->votes;
    uint8_t line[HALL_MAX_LINE], printed[HALL_ANSWER_LENGTH];
    uint32_t number = hall_print_opening(opening->n, opening->founders, opening->third, votes[0], votes[1], votes[2],
                                         votes[3], votes[4], votes[5], votes[6], votes[7], line, sizeof line, printed,
                                         sizeof printed);
    take_line(number, line, printed, words);
}

/* -- Answers ------------------------------------------------------------- */

/* The fields of an accepted answer behind its first word, as the listing has them. */
static void fields_listed(const uint8_t *answer, char *words, size_t room)
{
    switch (hall_word(answer, HALL_ANSWER_CASE)) {
    case HALL_CASE_ENTRY:
        snprintf(words, room, " %" PRIu32 ".%" PRIu32 ".%" PRIu32 " %" PRIu32, hall_word(answer, HALL_ENTRY_VIEW),
                 hall_word(answer, HALL_ENTRY_SEQ), hall_word(answer, HALL_ENTRY_SENDER),
                 hall_word(answer, HALL_ENTRY_VALUE));
        break;
    case HALL_CASE_SUMMARY:
        snprintf(words, room, " %" PRIu32 " %" PRIu32 " %" PRIu32 " %" PRIu32 " %" PRIu32,
                 hall_word(answer, HALL_SUMMARY_SOURCE), hall_word(answer, HALL_SUMMARY_KNOWN),
                 hall_word(answer, HALL_SUMMARY_ORDER), hall_word(answer, HALL_SUMMARY_CONFIRM),
                 hall_word(answer, HALL_SUMMARY_HIGHEST));
        break;
    case HALL_CASE_FROM:
        snprintf(words, room, " %" PRIu32 " %" PRIu32, hall_word(answer, HALL_FROM_SENDER),
                 hall_word(answer, HALL_FROM_VALUE));
        break;
    default:
        words[0] = '\0';
    }
}

void answer_listed(uint32_t number, const uint8_t *answer, char words[MAX_WORDS])
{
    if (number != HALL_OK) {
        snprintf(words, MAX_WORDS, "refused %" PRIu32, number);
        return;
    }
    int length = snprintf(words, MAX_WORDS, "%s", hall_case_word(hall_word(answer, HALL_ANSWER_CASE)));
    fields_listed(answer, words + length, MAX_WORDS - (size_t)length);
}

void answer_words(uint32_t kind, uint32_t number, const uint8_t *answer, char words[MAX_WORDS])
{
    if (number != HALL_OK) {
        snprintf(words, MAX_WORDS, "refused %" PRIu32 ": %s", number, hall_refusal_text(number, kind));
    } else if (hall_word(answer, HALL_ANSWER_CASE) == HALL_CASE_SUMMARY) {
        snprintf(words, MAX_WORDS,
                 "summary of %" PRIu32 ": known %" PRIu32 ", log %" PRIu32 ", confirmed %" PRIu32
                 ", highest primary %" PRIu32,
                 hall_word(answer, HALL_SUMMARY_SOURCE), hall_word(answer, HALL_SUMMARY_KNOWN),
                 hall_word(answer, HALL_SUMMARY_ORDER), hall_word(answer, HALL_SUMMARY_CONFIRM) - 1,
                 hall_word(answer, HALL_SUMMARY_HIGHEST));
    } else {
        answer_listed(number, answer, words);
    }
}

/* -- Sets ---------------------------------------------------------------- */

int is_member(uint32_t set, uint32_t r)
{
    return r >= 1 && r <= HALL_RECORDERS && (set >> (r - 1) & 1) != 0;
}

void set_words(uint32_t set, char words[MAX_WORDS])
{
    char *to = words;
    *to++ = '{';
    for (uint32_t r = 1; r <= HALL_RECORDERS; r++) {
        if (is_member(set, r)) {
            if (to != words + 1) {
                *to++ = ',';
            }
            *to++ = (char)('0' + r);
        }
    }
    *to++ = '}';
    *to = '\0';
}
