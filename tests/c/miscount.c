/*
 * A held settle that counts a step too many, to see that group_page tells. Linked
 * with --wrap=hall_settle_held.
 */
#include "hall.h"

uint32_t __real_hall_settle_held(uint8_t *hall, size_t hall_len, uint8_t *undo, size_t undo_len, uint8_t *answer,
                                 size_t answer_len);
uint32_t __wrap_hall_settle_held(uint8_t *hall, size_t hall_len, uint8_t *undo, size_t undo_len, uint8_t *answer,
                                 size_t answer_len);

uint32_t __wrap_hall_settle_held(uint8_t *hall, size_t hall_len, uint8_t *undo, size_t undo_len, uint8_t *answer,
                                 size_t answer_len)
{
    uint32_t number = __real_hall_settle_held(hall, hall_len, undo, undo_len, answer, answer_len);
    answer[4 * HALL_SETTLE_COUNT]++;
    return number;
}
