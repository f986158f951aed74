/*
 * What smoke.c and back.c share: the count of checks, slices that are allocated
 * by themselves with just the length that is lent, so that a memory checker sees
 * any access outside them, and what such a slice holds.
 */
#ifndef HL3_TESTS_CHECK_H
#define HL3_TESTS_CHECK_H

#include "hall.h"

#include <stdio.h>
#include <stdlib.h>
#include <string.h>

static unsigned passed;
static unsigned failed;

static inline void check(int holds, const char *what, const char *file, unsigned line)
{
    if (holds) {
        passed++;
    } else {
        failed++;
        printf("%s:%u: %s\n", file, line, what);
    }
}

#define CHECK(holds) check((holds), #holds, __FILE__, __LINE__)

/* A slice that holds one byte everywhere. */
static inline uint8_t *filled(size_t length, uint8_t byte)
{
    /* malloc(0) may give a null pointer. */
    uint8_t *bytes = malloc(length ? length : 1);
    if (!bytes) {
        puts("no memory");
        exit(2);
    }
    memset(bytes, byte, length);
    return bytes;
}

static inline int holds_only(const uint8_t *bytes, size_t from, size_t to, uint8_t byte)
{
    for (size_t i = from; i < to; i++) {
        if (bytes[i] != byte) {
            return 0;
        }
    }
    return 1;
}

/* Whether a slice has the given first words, then zero words, and after them
 * `rest` bytes 0xa5. */
static inline int words_are(const uint8_t *bytes, size_t rest, const uint32_t *words, size_t count)
{
    for (size_t i = 0; i < HALL_WORDS; i++) {
        if (hall_word(bytes, i) != (i < count ? words[i] : 0)) {
            printf("word %u is %u\n", (unsigned)i, (unsigned)hall_word(bytes, i));
            return 0;
        }
    }
    return holds_only(bytes, HALL_ANSWER_LENGTH, HALL_ANSWER_LENGTH + rest, 0xa5);
}

/* Prints the last line. The exit status. */
static inline int end_checks(void)
{
    printf("%u passed, %u failed\n", passed, failed);
    return failed != 0;
}

#endif
