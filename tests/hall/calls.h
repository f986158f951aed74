/*
 * The tool called many times in one process: what the programs of the tests share.
 */
#ifndef HL3_TESTS_HALL_CALLS_H
#define HL3_TESTS_HALL_CALLS_H

#include "tool.h"

/* A number below a bound, from a state that is not 0. */
uint32_t below(uint64_t *state, uint32_t bound);

/* Says what went wrong, and ends the program with status 2. */
void fail(const char *what);

/* What a call of the tool wrote and how it ended. */
struct call {
    int status;
    char *out, *err;
    size_t out_length, err_length;
};

/* Calls the tool with an empty standard input, or with one that holds bytes; at
 * most 8 words. end_call is due. */
struct call call_tool(int argc, const char *const *words);
struct call call_tool_with(int argc, const char *const *words, const void *input, size_t length);
void end_call(struct call *call);

/* Whether a call ended as one does: a status from 0 to 4; of 0 no error is said, and
 * of 2 and on one is, in whole lines. */
int is_well(const struct call *call);

void write_file(const char *path, const uint8_t *bytes, size_t length);

#endif
