/*
 * The text form of a run a second time, written from include/hall.h and
 * docs/text-form.md and not from the library's code: calls that return and leave
 * what those of the library do, to compare these with.
 */
#ifndef HL3_TESTS_SECOND_H
#define HL3_TESTS_SECOND_H

#include "hall.h"

/* hall_print_opening, with the votes in a row. */
uint32_t second_print_opening(uint32_t n, uint32_t founders, uint32_t third, const uint32_t votes[HALL_RECORDERS],
                              uint8_t *text, size_t text_len, uint8_t *words, size_t words_len);

/* hall_print_action, with its four words in a row. */
uint32_t second_print_action(const uint32_t action[4], uint8_t *text, size_t text_len, uint8_t *words,
                             size_t words_len);

/* hall_parse_line. */
uint32_t second_parse_line(const uint8_t *text, size_t text_len, size_t at, uint8_t *words, size_t words_len);

#endif
