/* hall diff: where two runs first differ, and how far their delivered lists agree. */
#include "tool.h"

#include <inttypes.h>
#include <stdlib.h>
#include <string.h>

/* Two runs and their halls: the first is marked <, the second >. */
struct pair {
    struct run runs[2];
    struct walk walks[2];
    struct lists lists[2];
};

static const char marks[2] = {'<', '>'};

/* -- Openings ------------------------------------------------------------ */

/* The first field in which two openings differ, NULL if they are the same. */
static const char *opening_field(const struct opening *one, const struct opening *other)
{
    if (one->n != other->n) {
        return "the number of recorders";
    }
    if (one->founders != other->founders) {
        return "the founders";
    }
    if (one->third != other->third || memcmp(one->votes, other->votes, sizeof one->votes) != 0) {
        return "the votes";
    }
    return NULL;
}

/* -- Pages --------------------------------------------------------------- */

/* What differs on the pages of the two halls, a line a recorder. */
static void print_pages(FILE *out, const struct pair *pair, const char *when)
{
    for (uint32_t r = 1; r <= HALL_RECORDERS; r++) {
        uint8_t pages[2][HALL_ANSWER_LENGTH];
        char changes[MAX_CHANGES];
        int has[2];
        for (size_t i = 0; i < 2; i++) {
            has[i] = hall_page(pair->walks[i].hall, HALL_LENGTH, r, 0, pages[i], sizeof pages[i]) == HALL_OK;
        }
        if (has[0] && has[1] && changes_words(pages[0], pages[1], "|", changes) != 0) {
            fprintf(out, "page of recorder %" PRIu32 " %s: %s\n", r, when, changes);
        }
    }
}

static void print_opening(FILE *out, const struct pair *pair, const char *field)
{
    fprintf(out, "opening differs: %s\n", field);
    for (size_t i = 0; i < 2; i++) {
        char words[MAX_WORDS];
        opening_words(&pair->runs[i].opening, words);
        fprintf(out, "%c %s\n", marks[i], words);
    }
    print_pages(out, pair, "after opening");
}

/* -- Actions ------------------------------------------------------------- */

/* Whether so many actions of the one run, from a place on, are those of the other. */
static int same_actions(const struct run *one, size_t from, const struct run *other, size_t other_from, size_t count)
{
    return memcmp(one->actions + ACTION_WORDS * from, other->actions + ACTION_WORDS * other_from,
                  count * ACTION_WORDS * sizeof *one->actions) == 0;
}

/* Whether all that follows is the same. */
static int same_rest(const struct run *one, size_t from, const struct run *other, size_t other_from)
{
    return from <= one->count && other_from <= other->count && one->count - from == other->count - other_from &&
           same_actions(one, from, other, other_from, one->count - from);
}

/* Whether both runs have the same action at a place. */
static int same_action(const struct pair *pair, size_t at)
{
    return at < pair->runs[0].count && at < pair->runs[1].count &&
           same_actions(&pair->runs[0], at, &pair->runs[1], at, 1);
}

/* Takes the next action of each run that has one. Whether both had the same one,
 * with the same answer. */
static int step_both(struct pair *pair)
{
    char answers[2][MAX_WORDS];
    size_t at = pair->walks[0].done;
    int same = same_action(pair, at);
    for (size_t i = 0; i < 2; i++) {
        if (at < pair->runs[i].count) {
            walk_step(&pair->walks[i]);
            answer_listed(pair->walks[i].number, pair->walks[i].answer, answers[i]);
        }
    }
    return same && strcmp(answers[0], answers[1]) == 0;
}

/* Both lines of an action, `at` from 0 on. */
static void print_actions(FILE *out, const struct pair *pair, size_t at)
{
    for (size_t i = 0; i < 2; i++) {
        char words[MAX_WORDS] = "(the run ends before it)";
        if (at < pair->runs[i].count) {
            action_words(pair->runs[i].actions + ACTION_WORDS * at, words);
        }
        fprintf(out, "%c %s\n", marks[i], words);
    }
}

/* Both answers to an action that was just taken. */
static void print_answers(FILE *out, const struct pair *pair, size_t at)
{
    for (size_t i = 0; i < 2; i++) {
        const struct walk *walk = &pair->walks[i];
        if (at < pair->runs[i].count) {
            char words[MAX_WORDS];
            answer_words(pair->runs[i].actions[ACTION_WORDS * at + K], walk->number, walk->answer, words);
            fprintf(out, "%c %s\n", marks[i], words);
        }
    }
}

/* Says if the runs differ in this one action alone. */
static void print_rest(FILE *out, const struct pair *pair, size_t at)
{
    const struct run *one = &pair->runs[0], *other = &pair->runs[1];
    if (same_rest(one, at + 1, other, at)) {
        fprintf(out, "without action %zu of the first run both are the same\n", at + 1);
    } else if (same_rest(one, at, other, at + 1)) {
        fprintf(out, "without action %zu of the second run both are the same\n", at + 1);
    } else if (same_rest(one, at + 1, other, at + 1)) {
        fputs("all actions after it are the same\n", out);
    }
}

/* The first action in which the runs differ, or the answers to it. */
static void print_action_difference(FILE *out, const struct pair *pair, size_t at)
{
    char when[MAX_WORDS];
    if (same_action(pair, at)) {
        char words[MAX_WORDS];
        action_words(pair->runs[0].actions + ACTION_WORDS * at, words);
        fprintf(out, "answer to action %zu differs: %s\n", at + 1, words);
    } else {
        fprintf(out, "action %zu differs\n", at + 1);
        print_actions(out, pair, at);
        print_rest(out, pair, at);
        fprintf(out, "answers to action %zu\n", at + 1);
    }
    print_answers(out, pair, at);
    snprintf(when, sizeof when, "after action %zu", at + 1);
    print_pages(out, pair, when);
}

/* -- Delivered lists ----------------------------------------------------- */

static void print_agreement(FILE *out, const char *where, const struct list *one, const struct list *other)
{
    fprintf(out, "delivered %s: %zu and %zu, alike in the first %zu\n", where, one->length, other->length,
            list_agrees(one, other));
}

/* The longest delivered list of a run: all others begin it. */
static const struct list *longest_delivered(const struct lists *lists)
{
    const struct list *longest = &lists->delivered[0];
    for (uint32_t r = 2; r <= lists->n; r++) {
        if (lists->delivered[r - 1].length > longest->length) {
            longest = &lists->delivered[r - 1];
        }
    }
    return longest;
}

static void print_delivered(FILE *out, const struct pair *pair)
{
    uint32_t n = pair->lists[0].n > pair->lists[1].n ? pair->lists[0].n : pair->lists[1].n;
    for (uint32_t r = 1; r <= n; r++) {
        char where[MAX_WORDS];
        snprintf(where, sizeof where, "at recorder %" PRIu32, r);
        print_agreement(out, where, &pair->lists[0].delivered[r - 1], &pair->lists[1].delivered[r - 1]);
    }
    print_agreement(out, "in the whole hall", longest_delivered(&pair->lists[0]), longest_delivered(&pair->lists[1]));
}

/* -- The command --------------------------------------------------------- */

/* Opens the halls and gathers the lists. */
static enum status prepare(const struct streams *io, struct pair *pair)
{
    for (size_t i = 0; i < 2; i++) {
        uint32_t number = walk_open(&pair->walks[i], &pair->runs[i]);
        if (number == HALL_OK) {
            number = lists_gather(&pair->lists[i], &pair->runs[i], pair->runs[i].count);
        }
        if (number != HALL_OK) {
            return complain_refused(io, pair->runs[i].name, 0, number);
        }
    }
    return STATUS_FINE;
}

/* Compares two runs. Whether they are the same. */
static int compare(FILE *out, struct pair *pair)
{
    const struct run *one = &pair->runs[0], *other = &pair->runs[1];
    const char *field = opening_field(&one->opening, &other->opening);
    if (!field && same_rest(one, 0, other, 0)) {
        return 1;
    }
    if (field) {
        print_opening(out, pair, field);
    }
    size_t most = one->count > other->count ? one->count : other->count;
    for (size_t at = 0; at < most; at++) {
        if (!step_both(pair)) {
            print_action_difference(out, pair, at);
            break;
        }
    }
    print_delivered(out, pair);
    return 0;
}

/* Reads both runs and compares them. */
static enum status diff_pair(const struct streams *io, const struct options *options, struct pair *pair)
{
    enum status status = run_read(io, options->words[0], READ_ASKS, &pair->runs[0]);
    if (status == STATUS_FINE) {
        status = run_read(io, options->words[1], READ_ASKS, &pair->runs[1]);
    }
    if (status == STATUS_FINE) {
        status = prepare(io, pair);
    }
    if (status != STATUS_FINE) {
        return status;
    }
    int same = compare(io->out, pair);
    return !same || pair->runs[0].failed || pair->runs[1].failed ? STATUS_DIFFERS : STATUS_FINE;
}

enum status diff_command(const struct streams *io, const struct options *options)
{
    struct pair *pair = calloc(1, sizeof *pair);
    if (!pair) {
        return complain_memory(io, options->words[0]);
    }
    enum status status = diff_pair(io, options, pair);
    run_free(&pair->runs[0]);
    run_free(&pair->runs[1]);
    free(pair);
    return status;
}
