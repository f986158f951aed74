/*
 * Measures how many bytes of stack each call takes: it runs in a thread whose
 * stack is painted before the call and looked at afterwards. A settle, held or
 * not, a step back and a listing take at most HALL_SETTLE_STACK. No other call
 * takes more than HALL_STACK, and only one 4,096 or more: the last summary of an exchange
 * that leaves all entries to be put into order, one level of recursion for each.
 * Prints the most that each kind of call took.
 *
 * The last line is 'N passed, M failed'.
 */
#define _POSIX_C_SOURCE 200112L
#include "hall.h"

#include <pthread.h>
#include <stdio.h>
#include <stdlib.h>
#include <string.h>

enum { AREA = 1 << 20, PAINT = 0xa5, MARGIN = 256 };

/* What a call may take: a settle, a step back or a listing, the step that puts
 * entries into order, and any other. */
enum { SETTLING = HALL_SETTLE_STACK, ORDERING = HALL_STACK, SMALL = 4095 };

static uint8_t hall[HALL_LENGTH];
static uint8_t before[HALL_LENGTH];
static uint8_t undo[HALL_UNDO_LENGTH];
static uint8_t answer[HALL_ANSWER_LENGTH];
static uint8_t file[HALL_MAX_FILE];
static uint32_t actions[4 * HALL_MAX_ACTIONS];
static uint8_t text[HALL_MAX_LISTING];

/* The bytes of the file to list, and of the text lent for its listing or read from. */
static size_t file_length;
static size_t text_length;

/* The words of the step to take, the room for its answer or for that of a settle,
 * and the number that came back. */
static uint32_t words[4];
static size_t room;
static uint32_t number;

static void open_hall(void)
{
    number = hall_open_built_in(hall, sizeof hall, 1, 1);
}

static void take_step(void)
{
    number = hall_step(hall, sizeof hall, words[0], words[1], words[2], words[3], answer, room);
}

static void take_held_step(void)
{
    number = hall_step_held(hall, sizeof hall, undo, sizeof undo, words[0], words[1], words[2], words[3], answer, room);
}

static void step_back(void)
{
    number = hall_step_back(hall, sizeof hall, undo, sizeof undo);
}

static void settle_hall(void)
{
    number = hall_settle(hall, sizeof hall, answer, room);
}

static void settle_held(void)
{
    number = hall_settle_held(hall, sizeof hall, undo, sizeof undo, answer, room);
}

static void read_page(void)
{
    number = hall_page(hall, sizeof hall, 1, HALL_MAX_ORDER, answer, sizeof answer);
}

static const uint32_t votes[HALL_RECORDERS] = {5, 3, 3, 1, 1, 1, 1, 1};

static void open_row(void)
{
    number = hall_open_row(hall, sizeof hall, 8, 255, votes);
}

static void write_votes(void)
{
    number = hall_run_write_row(file, sizeof file, 8, 0, votes, actions, 4 * HALL_MAX_ACTIONS_WITH_VOTES, answer,
                                sizeof answer);
}

static void write_run(void)
{
    number = hall_run_write_built_in(file, sizeof file, 8, 0, actions, 4 * HALL_MAX_ACTIONS, answer, sizeof answer);
}

static void read_run(void)
{
    number = hall_run_read(file, sizeof file, answer, sizeof answer);
}

static void read_action(void)
{
    number = hall_run_action(file, sizeof file, HALL_RUN_BLOCK, answer, sizeof answer);
}

static void check_hall(void)
{
    number = hall_check(hall, sizeof hall);
}

static void list_run(void)
{
    number = hall_run_list(file, file_length, hall, sizeof hall, text, text_length, answer, room);
}

static void print_opening(void)
{
    number = hall_print_opening(8, 127, 1, 1000, 1000, 1000, 1000, 1000, 1000, 1000, 1000, text, sizeof text, answer,
                                room);
}

static void print_action(void)
{
    number = hall_print_action(words[0], words[1], words[2], words[3], text, sizeof text, answer, room);
}

static void read_line(void)
{
    number = hall_parse_line(text, text_length, 0, answer, room);
}

static void fail(const char *what)
{
    printf("stack.c: %s\n", what);
    exit(2);
}

/* A call to make, the memory of the thread's stack, and what the call took. */
struct call {
    void (*function)(void);
    uint8_t *area;
    size_t bytes;
};

/* Paints the stack below, makes the call, and looks how far it was written.
 * What lies within MARGIN is this function's own, and that of painting. */
static void *run(void *given)
{
    struct call *call = given;
    uint8_t mark = 0;
    size_t below = (size_t)((uintptr_t)&mark - (uintptr_t)call->area);
    size_t clean = 0;
    memset(call->area, PAINT, below - MARGIN);
    call->function();
    while (clean < below - MARGIN && call->area[clean] == PAINT) {
        clean++;
    }
    call->bytes = below - clean;
    return NULL;
}

/* How many bytes of a thread's stack a call takes, or MARGIN if it is less. */
static size_t stack_of(void (*function)(void))
{
    struct call call = {function, NULL, 0};
    pthread_attr_t attributes;
    pthread_t thread;
    void *area;
    if (posix_memalign(&area, 4096, AREA) != 0) {
        fail("no memory");
    }
    call.area = area;
    if (pthread_attr_init(&attributes) != 0 || pthread_attr_setstack(&attributes, area, AREA) != 0 ||
        pthread_create(&thread, &attributes, run, &call) != 0 || pthread_join(thread, NULL) != 0) {
        fail("no thread");
    }
    pthread_attr_destroy(&attributes);
    free(area);
    return call.bytes;
}

static unsigned passed;
static unsigned failed;

/* The calls by their names, and the most that those of a name took. */
struct peak {
    const char *name;
    size_t bytes;
};

static struct peak peaks[] = {
    {"open", 0},
    {"open with votes", 0},
    {"1 submit", 0},
    {"2 label", 0},
    {"3 send an entry", 0},
    {"4 send the summary", 0},
    {"5 form", 0},
    {"6 enter", 0},
    {"7 place an entry", 0},
    {"7 place the summary", 0},
    {"8 receive an entry", 0},
    {"8 receive the last summary", 0},
    {"9 notice of an entry", 0},
    {"9 notice of the summary", 0},
    {"10 confirm", 0},
    {"11 deliver", 0},
    {"settle, the longest", 0},
    {"settle, with all entries to be ordered", 0},
    {"held step, the last summary", 0},
    {"held step, any other", 0},
    {"held settle, the longest", 0},
    {"held settle, with all entries to be ordered", 0},
    {"step back, the last summary", 0},
    {"step back, any other", 0},
    {"page of a full order", 0},
    {"check", 0},
    {"write a run", 0},
    {"read a run", 0},
    {"write a run with votes", 0},
    {"read a run with votes", 0},
    {"read an action", 0},
    {"list a file that is refused", 0},
    {"list a run", 0},
    {"list a run, which is measured first", 0},
    {"print an opening", 0},
    {"print an action", 0},
    {"read a line", 0},
};

enum { PEAKS = sizeof peaks / sizeof peaks[0] };

static void keep_peak(const char *name, size_t bytes)
{
    size_t i = 0;
    while (i < PEAKS && strcmp(peaks[i].name, name) != 0) {
        i++;
    }
    if (i == PEAKS) {
        fail("a call without a name");
    }
    if (bytes > peaks[i].bytes) {
        peaks[i].bytes = bytes;
    }
}

static void print_peaks(void)
{
    puts("bytes of stack, at most:");
    for (size_t i = 0; i < PEAKS; i++) {
        printf("%7lu %s\n", (unsigned long)peaks[i].bytes, peaks[i].name);
    }
}

/* Makes a call, which gives the wanted number and takes no more stack than it
 * may. */
static void measure(const char *name, void (*function)(void), uint32_t wanted, size_t limit)
{
    size_t bytes = stack_of(function);
    keep_peak(name, bytes);
    if (number == wanted && bytes <= limit) {
        passed++;
    } else {
        failed++;
        printf("stack.c: %s: number %lu, %lu bytes\n", name, (unsigned long)number, (unsigned long)bytes);
    }
}

/* A call with an answer, first without room for it, which is the last reason to
 * refuse it. */
static void answered_within(size_t limit, const char *name, void (*function)(void))
{
    room = 0;
    measure(name, function, HALL_REFUSED_SHORT, limit);
    room = sizeof answer;
    measure(name, function, HALL_OK, limit);
}

/* A step, and from the same hall a held one, which is taken back and then taken
 * again. The undo buffer is soon full, so that slots move. */
static void step_within(size_t limit, const char *name, uint32_t k, uint32_t r, uint32_t a, uint32_t b)
{
    const uint32_t given[4] = {k, r, a, b};
    const char *held = limit == ORDERING ? "held step, the last summary" : "held step, any other";
    const char *back = limit == ORDERING ? "step back, the last summary" : "step back, any other";
    memcpy(words, given, sizeof words);
    memcpy(before, hall, sizeof hall);
    answered_within(limit, name, take_step);
    memcpy(hall, before, sizeof hall);
    answered_within(limit, held, take_held_step);
    measure(back, step_back, HALL_OK, SETTLING);
    measure(held, take_held_step, HALL_OK, limit);
}

/* A settle, and from the same hall a held one, of which the newest actions are
 * taken back. */
static void settle_within(const char *name, const char *held)
{
    memcpy(before, hall, sizeof hall);
    answered_within(SETTLING, name, settle_hall);
    memcpy(hall, before, sizeof hall);
    answered_within(SETTLING, held, settle_held);
    for (int i = 0; i < HALL_MAX_UNDO; i++) {
        measure("step back, any other", step_back, HALL_OK, SETTLING);
    }
    measure("step back, any other", step_back, HALL_REFUSED_UNDO, SETTLING);
}

static void step(const char *name, uint32_t k, uint32_t r, uint32_t a, uint32_t b)
{
    step_within(SMALL, name, k, r, a, b);
}

/* An entry on its whole way. */
static void one_entry(void)
{
    step("1 submit", HALL_SUBMIT, 1, 7, 0);
    step("2 label", HALL_LABEL, 1, 0, 0);
    step("3 send an entry", HALL_SEND_ENTRY, 1, 0, 0);
    step("7 place an entry", HALL_PLACE, 1, 1, 0);
    step("8 receive an entry", HALL_RECEIVE, 1, 0, 0);
    step("9 notice of an entry", HALL_SAFE, 1, 0, 0);
    step("10 confirm", HALL_CONFIRM, 1, 0, 0);
    step("11 deliver", HALL_DELIVER, 1, 0, 0);
}

/* In a hall of one recorder all entries are known and none is in the order. */
static void all_labelled(void)
{
    measure("open", open_hall, HALL_OK, SMALL);
    memset(undo, 0, sizeof undo);
    for (uint32_t i = 1; i <= HALL_MAX_ENTRIES; i++) {
        step("1 submit", HALL_SUBMIT, 1, i, 0);
        step("2 label", HALL_LABEL, 1, 0, 0);
    }
}

/* A new view puts them there. */
static void longest_order(void)
{
    all_labelled();
    step("3 send an entry", HALL_SEND_ENTRY, 1, 0, 0);
    step("5 form", HALL_FORM, 0, 2, 1);
    step("6 enter", HALL_ENTER, 1, 2, 0);
    step("4 send the summary", HALL_SEND_SUMMARY, 1, 0, 0);
    step("7 place the summary", HALL_PLACE, 1, 2, 0);
    step_within(ORDERING, "8 receive the last summary", HALL_RECEIVE, 1, 0, 0);
    step("9 notice of the summary", HALL_SAFE, 1, 0, 0);
    step("10 confirm", HALL_CONFIRM, 1, 0, 0);
    step("11 deliver", HALL_DELIVER, 1, 0, 0);
}

/* The same in a settle. */
static void settled_order(void)
{
    all_labelled();
    step("5 form", HALL_FORM, 0, 2, 1);
    settle_within("settle, with all entries to be ordered", "held settle, with all entries to be ordered");
}

/* The most steps: all entries wait, and nobody has entered the new view. */
static void longest_settle(void)
{
    measure("open with votes", open_row, HALL_OK, SMALL);
    memset(undo, 0, sizeof undo);
    for (uint32_t i = 0; i < HALL_MAX_ENTRIES; i++) {
        step("1 submit", HALL_SUBMIT, i % 8 + 1, i, 0);
    }
    step("5 form", HALL_FORM, 0, 2, 255);
    settle_within("settle, the longest", "held settle, the longest");
}

/* Puts an action into the list at a place, and gives the place after it. */
static size_t put_action(size_t at, uint32_t k, uint32_t r, uint32_t a, uint32_t b)
{
    const uint32_t action[] = {k, r, a, b};
    memcpy(actions + 4 * at, action, sizeof action);
    return at + 1;
}

/* The run of the longest order, into the file. */
static void write_longest_order(void)
{
    size_t count = 0;
    for (uint32_t i = 1; i <= HALL_MAX_ENTRIES; i++) {
        count = put_action(count, HALL_SUBMIT, 1, i, 0);
        count = put_action(count, HALL_LABEL, 1, 0, 0);
    }
    count = put_action(count, HALL_FORM, 0, 2, 1);
    count = put_action(count, HALL_ENTER, 1, 2, 0);
    count = put_action(count, HALL_SEND_SUMMARY, 1, 0, 0);
    count = put_action(count, HALL_PLACE, 1, 2, 0);
    count = put_action(count, HALL_RECEIVE, 1, 0, 0);
    number = hall_run_write_built_in(file, sizeof file, 1, 1, actions, 4 * count, answer, sizeof answer);
    file_length = hall_word(answer, HALL_WRITTEN_LENGTH);
    if (number != HALL_OK) {
        fail("no run");
    }
}

/* The listing of that run: into a text that is long enough for any, into one of
 * just its length, and into one byte less. */
static void listings(void)
{
    file_length = 0;
    text_length = sizeof text;
    answered_within(SETTLING, "list a file that is refused", list_run);
    write_longest_order();
    answered_within(SETTLING, "list a run", list_run);
    text_length = hall_word(answer, HALL_LISTING_LENGTH);
    answered_within(SETTLING, "list a run, which is measured first", list_run);
    text_length--;
    measure("list a run, which is measured first", list_run, HALL_REFUSED_SHORT, SETTLING);
    measure("check", check_hall, HALL_OK, SMALL);
    measure("page of a full order", read_page, HALL_OK, SMALL);
}

/* Reads the line that was just printed. */
static void read_within(void)
{
    text_length = hall_word(answer, HALL_TEXT_LENGTH);
    answered_within(SMALL, "read a line", read_line);
}

/* An action of each kind, and the longest one. */
static void printed_actions(void)
{
    for (uint32_t k = 1; k <= HALL_DELIVER; k++) {
        const uint32_t plain[] = {k, k == HALL_FORM ? 0 : 8, k == HALL_FORM ? 4 : 0, k == HALL_FORM ? 255 : 0};
        memcpy(words, plain, sizeof words);
        answered_within(SMALL, "print an action", print_action);
        read_within();
    }
    memset(words, 0xff, sizeof words);
    answered_within(SMALL, "print an action", print_action);
    read_within();
}

/* A line that fills the text: these words, then the same bytes over and over. */
static void read_long(const char *begin, const char *more)
{
    size_t length = strlen(begin), step = strlen(more);
    memcpy(text, begin, length);
    for (text_length = length; text_length + step <= sizeof text; text_length += step) {
        memcpy(text + text_length, more, step);
    }
    answered_within(SMALL, "read a line", read_line);
}

/* Lines of text: printed ones read back, and the longest ones. */
static void lines(void)
{
    answered_within(SMALL, "print an opening", print_opening);
    read_within();
    printed_actions();
    read_long("", " ");
    read_long("# ", "remark ");
    read_long("", "x");
    read_long("label ", "0");
    read_long("form 4 {", "1,");
    read_long("hall 8 votes", " 1");
    read_long("raw", " 0000000001");
}

int main(void)
{
    measure("open with votes", open_row, HALL_OK, SMALL);
    measure("open", open_hall, HALL_OK, SMALL);
    one_entry();
    longest_order();
    measure("page of a full order", read_page, HALL_OK, SMALL);
    settled_order();
    longest_settle();
    measure("write a run", write_run, HALL_OK, SMALL);
    measure("read a run", read_run, HALL_OK, SMALL);
    measure("write a run with votes", write_votes, HALL_OK, SMALL);
    measure("read a run with votes", read_run, HALL_OK, SMALL);
    measure("read an action", read_action, HALL_OK, SMALL);
    listings();
    lines();

    print_peaks();
    printf("%u passed, %u failed\n", passed, failed);
    return failed != 0;
}
