/*
 * A library that lies, linked with -Wl,--wrap of these calls: LIE says which of
 * them. Where the library and an explanation of the tool differ the tool says so.
 */
#include "hall.h"

#include <stdlib.h>
#include <string.h>

static unsigned lies(const char *what)
{
    const char *lie = getenv("LIE");
    return lie && strcmp(lie, what) == 0;
}

uint32_t __real_hall_version(void);
uint32_t __wrap_hall_version(void);
uint32_t __wrap_hall_version(void)
{
    return __real_hall_version() + lies("version");
}

uint32_t __real_hall_length(void);
uint32_t __wrap_hall_length(void);
uint32_t __wrap_hall_length(void)
{
    return __real_hall_length() + lies("length");
}

/* A settle that counts a step too many, or that leaves another hall. */
uint32_t __real_hall_settle(uint8_t *hall, size_t hall_len, uint8_t *answer, size_t answer_len);
uint32_t __wrap_hall_settle(uint8_t *hall, size_t hall_len, uint8_t *answer, size_t answer_len);
uint32_t __wrap_hall_settle(uint8_t *hall, size_t hall_len, uint8_t *answer, size_t answer_len)
{
    uint32_t number = __real_hall_settle(hall, hall_len, answer, answer_len);
    answer[4 * HALL_SETTLE_COUNT] = (uint8_t)(answer[4 * HALL_SETTLE_COUNT] + lies("count"));
    hall[HALL_LENGTH - 1] = (uint8_t)(hall[HALL_LENGTH - 1] ^ lies("settle"));
    return number;
}

/* A held settle that does so, or that holds another action. */
uint32_t __real_hall_settle_held(uint8_t *hall, size_t hall_len, uint8_t *undo, size_t undo_len, uint8_t *answer,
                                 size_t answer_len);
uint32_t __wrap_hall_settle_held(uint8_t *hall, size_t hall_len, uint8_t *undo, size_t undo_len, uint8_t *answer,
                                 size_t answer_len);
uint32_t __wrap_hall_settle_held(uint8_t *hall, size_t hall_len, uint8_t *undo, size_t undo_len, uint8_t *answer,
                                 size_t answer_len)
{
    uint32_t number = __real_hall_settle_held(hall, hall_len, undo, undo_len, answer, answer_len);
    answer[4 * HALL_SETTLE_COUNT] = (uint8_t)(answer[4 * HALL_SETTLE_COUNT] + lies("held count"));
    hall[HALL_LENGTH - 1] = (uint8_t)(hall[HALL_LENGTH - 1] ^ lies("held settle"));
    undo[1] = (uint8_t)(undo[1] ^ lies("hold"));
    return number;
}

/* A step back that leaves another hall, that takes an action from the buffer alone or
 * from the hall alone, that is refused though an action is held, or that is accepted
 * though none is. */
uint32_t __real_hall_step_back(uint8_t *hall, size_t hall_len, uint8_t *undo, size_t undo_len);
uint32_t __wrap_hall_step_back(uint8_t *hall, size_t hall_len, uint8_t *undo, size_t undo_len);
uint32_t __wrap_hall_step_back(uint8_t *hall, size_t hall_len, uint8_t *undo, size_t undo_len)
{
    static uint8_t old_hall[HALL_LENGTH], old_undo[HALL_UNDO_LENGTH];
    if (lies("no back")) {
        return HALL_REFUSED_UNDO;
    }
    memcpy(old_hall, hall, sizeof old_hall);
    memcpy(old_undo, undo, sizeof old_undo);
    uint32_t number = __real_hall_step_back(hall, hall_len, undo, undo_len);
    hall[HALL_LENGTH - 1] = (uint8_t)(hall[HALL_LENGTH - 1] ^ lies("back"));
    if (lies("back of the buffer")) {
        memcpy(hall, old_hall, sizeof old_hall);
    }
    if (lies("back of the hall")) {
        memcpy(undo, old_undo, sizeof old_undo);
    }
    return lies("any back") ? HALL_OK : number;
}

/* Pages of recorder 2 with another value or sender at a place, another view or mark. */
uint32_t __real_hall_page(const uint8_t *hall, size_t hall_len, uint32_t r, uint32_t place, uint8_t *page,
                          size_t page_len);
uint32_t __wrap_hall_page(const uint8_t *hall, size_t hall_len, uint32_t r, uint32_t place, uint8_t *page,
                          size_t page_len);
uint32_t __wrap_hall_page(const uint8_t *hall, size_t hall_len, uint32_t r, uint32_t place, uint8_t *page,
                          size_t page_len)
{
    uint32_t number = __real_hall_page(hall, hall_len, r, place, page, page_len);
    if (number == HALL_OK && r == 2 && place != 0) {
        page[4 * HALL_PAGE_VALUE] = (uint8_t)(page[4 * HALL_PAGE_VALUE] + lies("value"));
        page[4 * HALL_PAGE_LABEL_SENDER] = (uint8_t)(page[4 * HALL_PAGE_LABEL_SENDER] + lies("sender"));
    }
    if (number == HALL_OK && r == 2) {
        page[4 * HALL_PAGE_VIEW] = (uint8_t)(page[4 * HALL_PAGE_VIEW] + lies("view"));
        page[4 * HALL_PAGE_CONFIRM] = (uint8_t)(page[4 * HALL_PAGE_CONFIRM] + lies("confirm"));
        page[4 * HALL_PAGE_REPORT] = (uint8_t)(page[4 * HALL_PAGE_REPORT] + lies("report"));
    }
    return number;
}

/* A deliver that answers another value, a receive that answers another source. */
uint32_t __real_hall_step(uint8_t *hall, size_t hall_len, uint32_t k, uint32_t r, uint32_t a, uint32_t b,
                          uint8_t *answer, size_t answer_len);
uint32_t __wrap_hall_step(uint8_t *hall, size_t hall_len, uint32_t k, uint32_t r, uint32_t a, uint32_t b,
                          uint8_t *answer, size_t answer_len);
uint32_t __wrap_hall_step(uint8_t *hall, size_t hall_len, uint32_t k, uint32_t r, uint32_t a, uint32_t b,
                          uint8_t *answer, size_t answer_len)
{
    uint32_t number = __real_hall_step(hall, hall_len, k, r, a, b, answer, answer_len);
    if (k == HALL_DELIVER && number == HALL_OK) {
        answer[4 * HALL_FROM_VALUE] = (uint8_t)(answer[4 * HALL_FROM_VALUE] + lies("deliver"));
    }
    if (k == HALL_RECEIVE && number == HALL_OK) {
        answer[4 * HALL_ENTRY_SOURCE] = (uint8_t)(answer[4 * HALL_ENTRY_SOURCE] + lies("source"));
    }
    return number;
}

/* A check that takes all bytes, or refuses all. */
uint32_t __real_hall_check(const uint8_t *hall, size_t hall_len);
uint32_t __wrap_hall_check(const uint8_t *hall, size_t hall_len);
uint32_t __wrap_hall_check(const uint8_t *hall, size_t hall_len)
{
    if (lies("takes")) {
        return HALL_OK;
    }
    return lies("refuses") ? HALL_REFUSED_BYTES : __real_hall_check(hall, hall_len);
}
