/*
 * The prompt called many times in one process.
 *
 *     prompts leads RUN HALL             whether a saved run leads to a saved hall
 *     prompts calls COUNT WORK           COUNT random lists of actions, settles and steps back, typed and called
 *     prompts mutants COUNT WORK FILE..  COUNT mutated prompts, made of the lines of texts
 *
 * WORK is a folder for what is saved: the program goes there. What is done is the same
 * at each start. The exit status is 0, 1 if there was a fault.
 */
#define _XOPEN_SOURCE 700

#include "calls.h"

#include <inttypes.h>
#include <stdlib.h>
#include <string.h>
#include <unistd.h>

/* -- What is saved --------------------------------------------------------- */

/* Reads a file. How many bytes it has, 0 if there is none. */
static size_t read_file(const char *path, uint8_t *bytes, size_t most)
{
    FILE *from = fopen(path, "rb");
    size_t length = from ? fread(bytes, 1, most, from) : 0;
    if (from) {
        fclose(from);
    }
    return length;
}

/* The last hall of a run file, as the library lists it. Whether the file is taken. */
static int last_hall(const char *path, uint8_t hall[HALL_LENGTH])
{
    static uint8_t file[HALL_MAX_FILE + 1], text[HALL_MAX_LISTING];
    uint8_t words[HALL_ANSWER_LENGTH];
    size_t length = read_file(path, file, sizeof file);
    return hall_run_read(file, length, words, sizeof words) == HALL_OK &&
           hall_run_list(file, length, hall, HALL_LENGTH, text, sizeof text, words, sizeof words) == HALL_OK;
}

/* Whether a file has the bytes of a hall. */
static int has_hall(const char *path, const uint8_t *hall)
{
    static uint8_t saved[HALL_LENGTH + 1];
    return read_file(path, saved, sizeof saved) == HALL_LENGTH && memcmp(saved, hall, HALL_LENGTH) == 0;
}

/* Whether a saved run leads to a saved hall. */
static int leads(const char *run, const char *hall)
{
    static uint8_t last[HALL_LENGTH];
    return last_hall(run, last) && has_hall(hall, last);
}

/* -- Lines to be typed ------------------------------------------------------- */

struct typed {
    uint64_t chance;
    char text[40000];
    size_t length;
};

/* Adds bytes that fit. */
static void type(struct typed *typed, const char *bytes, size_t length)
{
    if (length <= sizeof typed->text - typed->length) {
        memcpy(typed->text + typed->length, bytes, length);
        typed->length += length;
    }
}

static void type_words(struct typed *typed, const char *words)
{
    type(typed, words, strlen(words));
}

static struct call play(const struct typed *typed, const char *file)
{
    const char *const words[] = {"hall", "play", file};
    return call_tool_with(file ? 3 : 2, words, typed->text, typed->length);
}

/* -- Calls compared with lines ------------------------------------------------ */

/* A list of calls, typed and made. */
struct list_of_calls {
    struct typed typed;
    char wanted[40000]; /* what is shown of each settle that is refused and of each step back */
    size_t wanted_length;
    uint32_t n, view;
    unsigned long backs, refused;
    uint8_t hall[HALL_LENGTH], undo[HALL_UNDO_LENGTH];
};

static void want(struct list_of_calls *list, const char *words)
{
    list->wanted_length += (size_t)snprintf(list->wanted + list->wanted_length,
                                            sizeof list->wanted - list->wanted_length, "%s\n", words);
}

static void open_list(struct list_of_calls *list, uint32_t i)
{
    char line[HALL_MAX_LINE];
    uint64_t chance = 0x9e3779b97f4a7c15u * (i + 3);
    memset(list, 0, sizeof *list);
    list->n = 1 + below(&chance, HALL_RECORDERS);
    list->typed.chance = chance;
    list->view = 1;
    if (hall_open_built_in(list->hall, HALL_LENGTH, list->n, (1u << list->n) - 1) != HALL_OK) {
        fail("no hall");
    }
    snprintf(line, sizeof line, "hall %" PRIu32 " founders whole\n", list->n);
    type_words(&list->typed, line);
}

static void call_step(struct list_of_calls *list, uint32_t k, uint32_t r, uint32_t a, uint32_t b)
{
    uint8_t answer[HALL_ANSWER_LENGTH], line[HALL_MAX_LINE];
    hall_step_held(list->hall, HALL_LENGTH, list->undo, HALL_UNDO_LENGTH, k, r, a, b, answer, sizeof answer);
    hall_print_action(k, r, a, b, line, sizeof line, answer, sizeof answer);
    type(&list->typed, (const char *)line, hall_word(answer, HALL_TEXT_LENGTH));
}

static void call_settle(struct list_of_calls *list)
{
    uint8_t answer[HALL_ANSWER_LENGTH];
    uint32_t number =
        hall_settle_held(list->hall, HALL_LENGTH, list->undo, HALL_UNDO_LENGTH, answer, sizeof answer);
    type_words(&list->typed, "settle\n");
    if (number != HALL_OK) {
        want(list, "settle refused");
    }
}

static void call_back(struct list_of_calls *list)
{
    uint32_t number = hall_step_back(list->hall, HALL_LENGTH, list->undo, HALL_UNDO_LENGTH);
    type_words(&list->typed, "back\n");
    want(list, number == HALL_REFUSED_UNDO ? "back 43" : "back");
    list->backs++;
    list->refused += number == HALL_REFUSED_UNDO;
}

/* Mostly a kind with its recorder, and the last view that was formed. */
static void call_any(struct list_of_calls *list)
{
    uint64_t *chance = &list->typed.chance;
    uint32_t k = 1 + below(chance, 12), r = 1 + below(chance, list->n);
    if (k == HALL_FORM && below(chance, 3) == 0) {
        list->view += below(chance, 3);
        call_step(list, k, 0, list->view, below(chance, 1u << list->n));
    } else if (k != HALL_FORM) {
        int has_view = k == HALL_ENTER || k == HALL_PLACE;
        call_step(list, k, r, k == HALL_SUBMIT ? below(chance, 900) : has_view ? list->view : 0, 0);
    }
}

static void make_calls(struct list_of_calls *list)
{
    uint64_t *chance = &list->typed.chance;
    for (uint32_t calls = below(chance, 160); calls != 0; calls--) {
        switch (below(chance, 32)) {
        case 0:
            call_settle(list);
            break;
        case 1:
            for (uint32_t backs = below(chance, HALL_MAX_UNDO + 4); backs != 0; backs--) {
                call_back(list);
            }
            break;
        case 2:
        case 3:
        case 4:
            call_back(list);
            break;
        default:
            call_any(list);
        }
    }
}

/* Whether a line begins with words. */
static int begins(const char *line, const char *words)
{
    return strncmp(line, words, strlen(words)) == 0;
}

/* What the prompt showed, as the list wants it. Whether it is. */
static int shows_wanted(const struct list_of_calls *list, const char *shown)
{
    static struct list_of_calls found;
    found.wanted[0] = '\0';
    found.wanted_length = 0;
    for (const char *line = shown; *line != '\0'; line = strchr(line, '\n') + 1) {
        if (begins(line, "settle  refused ")) {
            want(&found, "settle refused");
        } else if (begins(line, "back  refused 43: ")) {
            want(&found, "back 43");
        } else if (begins(line, "back  ") && strstr(line, " refused after it\n") != strchr(line, '\n') - 17) {
            want(&found, "back");
        }
    }
    return strcmp(found.wanted, list->wanted) == 0;
}

/* Random lists: what is typed leaves what the calls leave. */
static int try_lists(uint32_t count)
{
    static struct list_of_calls list;
    unsigned long faults = 0, backs = 0, refused = 0;
    for (uint32_t i = 0; i < count; i++) {
        open_list(&list, i);
        make_calls(&list);
        type_words(&list.typed, "save list.run\nsave list.hall\n");
        struct call call = play(&list.typed, NULL);
        if (call.status != STATUS_FINE || !shows_wanted(&list, call.out) || !has_hall("list.hall", list.hall) ||
            !leads("list.run", "list.hall")) {
            faults++;
            fprintf(stderr, "prompts: list %" PRIu32 ": status %d\n", i, call.status);
        }
        backs += list.backs;
        refused += list.refused;
        end_call(&call);
    }
    printf("%lu steps back, %lu refused, %lu faults\n", backs, refused, faults);
    return faults != 0 || refused == 0 || refused == backs;
}

/* -- Mutated prompts ----------------------------------------------------------- */

/* Lines that are put between those of a text. */
static const char *const pieces[] = {
    "back", "back", "back", "back # remark", "back 1", "group", "group 1", "help", "settle", "settle", "show 1",
    "show 9", "= ok", "= refused 43", "= refused 42", "= refused 38", "save piece.run", "  save  a piece.hall  ",
    "save none/x.run", "save x.txt", "save", "save#.run", "hall 3 founders whole", "hall 9",
    "hall 8 votes 1 0 0 0 0 0 0 1000", "form 9 {1,2}", "form 12 {1,2,3}", "exchange 9", "exchange 12", "log 1 7",
    "log 9 1", "receive all 1", "deliver all 9", "submit 1 5", "raw 12 9 0 0", "quit now", "\xff\xfe", "", "\t", "#",
};

enum { PIECES = sizeof pieces / sizeof pieces[0] };

/* Types a line with a byte of it changed, gone or twice; a zero byte or a line end too. */
static void type_mutated(struct typed *typed, const char *line, size_t length)
{
    size_t at = below(&typed->chance, (uint32_t)length + 1);
    char byte = (char)below(&typed->chance, 256);
    type(typed, line, at);
    type(typed, &byte, byte == '/' ? 0 : below(&typed->chance, 2));
    at += below(&typed->chance, 2);
    type(typed, line + at, at < length ? length - at : 0);
}

/* A line that is longer than any. */
static void type_long(struct typed *typed)
{
    static const char blanks[5000] = "log";
    type(typed, blanks, 3000 + below(&typed->chance, 2000));
}

/* Types a line of a text, or something else. */
static void type_line(struct typed *typed, const char *line, size_t length)
{
    uint32_t what = below(&typed->chance, 64);
    if (what == 0) {
        type_long(typed);
    } else if (what < 4) {
        type_mutated(typed, line, length);
    } else if (what > 5) {
        type(typed, line, length);
    }
    type_words(typed, "\n");
    while (below(&typed->chance, 3) == 0) {
        type_words(typed, pieces[below(&typed->chance, PIECES)]);
        type_words(typed, "\n");
    }
}

/* Types the lines of a text. */
static void type_text(struct typed *typed, const char *text)
{
    while (*text != '\0') {
        size_t length = strcspn(text, "\n");
        type_line(typed, text, length);
        text += length + (text[length] == '\n');
    }
}

/* Plays what is typed, after a file of the same lines at times, and saves at the end
 * every other time. Whether it ended as it must. */
static int try_mutant(struct typed *typed, uint32_t i, unsigned long *statuses)
{
    const char *file = i % 8 == 0 ? "mutant.txt" : NULL;
    remove("end.run");
    remove("end.hall");
    if (file) {
        write_file(file, (const uint8_t *)typed->text, typed->length / 2);
    }
    type_words(typed, i % 2 == 0 ? "\nsave end.run\nsave end.hall" : "");
    struct call call = play(typed, file);
    int is_saved = access("end.run", F_OK) == 0, well = is_well(&call);
    if (is_saved ? !leads("end.run", "end.hall") : access("end.hall", F_OK) == 0) {
        well = 0;
    }
    if (well) {
        statuses[call.status]++;
    } else {
        fprintf(stderr, "prompts: mutant %" PRIu32 ": status %d, says: %s\n", i, call.status, call.err);
    }
    statuses[STATUS_FAILED + 1] += (unsigned long)is_saved;
    end_call(&call);
    return well;
}

static int try_mutants(uint32_t count, uint32_t seeds, char **paths)
{
    static struct typed typed;
    static uint8_t seed[8192];
    unsigned long faults = 0, statuses[STATUS_FAILED + 2] = {0};
    for (uint32_t i = 0; i < count; i++) {
        size_t length = read_file(paths[i % seeds], seed, sizeof seed - 1);
        seed[length] = '\0';
        typed.chance = 0x9e3779b97f4a7c15u * (i + 5);
        typed.length = 0;
        type_text(&typed, (const char *)seed);
        faults += !try_mutant(&typed, i, statuses);
    }
    printf("statuses 0 to 4: %lu %lu %lu %lu %lu, %lu saved, %lu faults\n", statuses[0], statuses[1], statuses[2],
           statuses[3], statuses[4], statuses[5], faults);
    /* That each status came shows that the mutants are worth something. */
    return faults != 0 || statuses[0] == 0 || statuses[1] == 0 || statuses[2] == 0 || statuses[3] == 0 ||
           statuses[4] == 0 || statuses[5] < count / 4;
}

int main(int argc, char **argv)
{
    if (argc == 4 && strcmp(argv[1], "leads") == 0) {
        return !leads(argv[2], argv[3]);
    }
    if (argc < 4 || chdir(argv[3]) != 0) {
        fail("usage: prompts leads RUN HALL, prompts calls COUNT WORK, prompts mutants COUNT WORK FILE..");
    }
    if (argc == 4 && strcmp(argv[1], "calls") == 0) {
        return try_lists((uint32_t)atoi(argv[2]));
    }
    if (argc > 4 && strcmp(argv[1], "mutants") == 0) {
        return try_mutants((uint32_t)atoi(argv[2]), (uint32_t)argc - 4, argv + 4);
    }
    fail("no such test");
}
