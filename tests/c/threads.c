/*
 * Makes calls in threads with small stacks: steps of all kinds, held ones too, in
 * 20,480 bytes; in 65,536 the deepest step, the last summary of an exchange that
 * leaves all entries to be put into order; in HALL_SETTLE_STACK and what a thread
 * needs the longest settle, and one with that deepest step in it; the same held;
 * and steps back.
 *
 * Each thread runs in a process of its own, and below its stack lies memory
 * that cannot be touched: a stack that is too small ends that process by a
 * signal, which is a failed test here.
 *
 * The last line is 'N passed, M failed'.
 */
#define _DEFAULT_SOURCE
#include "hall.h"
#include "kinds.h"

#include <pthread.h>
#include <stdio.h>
#include <stdlib.h>
#include <string.h>
#include <sys/mman.h>
#include <sys/wait.h>
#include <unistd.h>

enum { GUARD = 1 << 20, PAINT = 0xa5 };

/* The stack for a settle or a step back, with 12,288 bytes for the thread itself. */
enum { SETTLING = HALL_SETTLE_STACK + 12288 };

static uint8_t hall[HALL_LENGTH];
static uint8_t undo[HALL_UNDO_LENGTH];
static uint8_t answer[HALL_ANSWER_LENGTH];

static unsigned passed;
static unsigned failed;

static void fail(const char *what)
{
    printf("threads.c: %s\n", what);
    exit(2);
}

static uint32_t step(uint32_t k, uint32_t r, uint32_t a, uint32_t b)
{
    return hall_step(hall, sizeof hall, k, r, a, b, answer, sizeof answer);
}

static uint32_t step_held(uint32_t k, uint32_t r, uint32_t a, uint32_t b)
{
    return hall_step_held(hall, sizeof hall, undo, sizeof undo, k, r, a, b, answer, sizeof answer);
}

/* Nothing is printed in a small thread, so that its stack is that of the
 * calls. Each function below returns 0 if all calls were taken. */
static uint32_t take_all_kinds(void)
{
    uint32_t refused = hall_open_built_in(hall, sizeof hall, 2, 3);
    for (size_t i = 0; i < ALL_KINDS; i++) {
        const uint32_t *words = all_kinds[i];
        refused |= step(words[0], words[1], words[2], words[3]);
    }
    return refused;
}

static uint32_t take_all_kinds_held(void)
{
    uint32_t refused = hall_open_built_in(hall, sizeof hall, 2, 3);
    memset(undo, 0, sizeof undo);
    for (size_t i = 0; i < ALL_KINDS; i++) {
        const uint32_t *words = all_kinds[i];
        refused |= step_held(words[0], words[1], words[2], words[3]);
    }
    return refused;
}

/* All that is held is taken back. */
static uint32_t take_all_back(void)
{
    uint32_t refused = HALL_OK;
    while (undo[0] != 0 && refused == HALL_OK) {
        refused = hall_step_back(hall, sizeof hall, undo, sizeof undo);
    }
    return refused;
}

static int is_all_back(void)
{
    return undo[0] == 0;
}

/* All entries are known and none is in the order, and a new view is formed. */
static uint32_t prepare_new_view(void)
{
    uint32_t refused = hall_open_built_in(hall, sizeof hall, 1, 1);
    for (uint32_t i = 1; i <= HALL_MAX_ENTRIES; i++) {
        refused |= step(HALL_SUBMIT, 1, i, 0);
        refused |= step(HALL_LABEL, 1, 0, 0);
    }
    return refused | step(HALL_FORM, 0, 2, 1);
}

/* The summary that is received next puts all entries into order. */
static uint32_t prepare_longest_order(void)
{
    uint32_t refused = prepare_new_view();
    refused |= step(HALL_ENTER, 1, 2, 0);
    refused |= step(HALL_SEND_SUMMARY, 1, 0, 0);
    return refused | step(HALL_PLACE, 1, 2, 0);
}

static uint32_t take_longest_order(void)
{
    return step(HALL_RECEIVE, 1, 0, 0);
}

static uint32_t take_longest_order_held(void)
{
    memset(undo, 0, sizeof undo);
    return step_held(HALL_RECEIVE, 1, 0, 0);
}

/* The longest order, held. */
static uint32_t prepare_order_held(void)
{
    uint32_t refused = prepare_longest_order();
    return refused | take_longest_order_held();
}

static int is_longest_order(void)
{
    return hall_page(hall, sizeof hall, 1, HALL_MAX_ORDER, answer, sizeof answer) == HALL_OK;
}

/* All entries wait, and nobody has entered the new view. */
static uint32_t prepare_longest_settle(void)
{
    uint32_t refused = hall_open_built_in(hall, sizeof hall, 8, 255);
    for (uint32_t i = 0; i < HALL_MAX_ENTRIES; i++) {
        refused |= step(HALL_SUBMIT, i % 8 + 1, i, 0);
    }
    return refused | step(HALL_FORM, 0, 2, 255);
}

static uint32_t take_settle(void)
{
    return hall_settle(hall, sizeof hall, answer, sizeof answer);
}

static uint32_t take_settle_held(void)
{
    memset(undo, 0, sizeof undo);
    return hall_settle_held(hall, sizeof hall, undo, sizeof undo, answer, sizeof answer);
}

static uint32_t prepare_settle_held(void)
{
    uint32_t refused = prepare_longest_settle();
    return refused | take_settle_held();
}

static int is_longest_settle(void)
{
    return hall_word(answer, HALL_SETTLE_COUNT) == HALL_MAX_SETTLE_STEPS;
}

struct calls {
    uint32_t (*take)(void);
    uint32_t refused;
};

static void *run(void *calls)
{
    struct calls *these = calls;
    these->refused = these->take();
    return NULL;
}

/* Makes the calls in a thread with this stack; whether all were taken. */
static int take_in_thread(struct calls *calls, void *stack, size_t length)
{
    pthread_attr_t attributes;
    pthread_t thread;
    if (pthread_attr_init(&attributes) != 0 || pthread_attr_setstack(&attributes, stack, length) != 0 ||
        pthread_create(&thread, &attributes, run, calls) != 0 || pthread_join(thread, NULL) != 0) {
        puts("threads.c: no thread");
        return 0;
    }
    return calls->refused == 0;
}

/* Memory for a stack, painted, with more below it that cannot be touched. The
 * process that uses it shares it with this one. */
static uint8_t *new_stack(size_t length)
{
    uint8_t *area = mmap(NULL, GUARD + length, PROT_NONE, MAP_SHARED | MAP_ANONYMOUS, -1, 0);
    if (area == MAP_FAILED || mprotect(area + GUARD, length, PROT_READ | PROT_WRITE) != 0) {
        fail("no memory");
    }
    memset(area + GUARD, PAINT, length);
    return area + GUARD;
}

/* How many bytes at the top of a stack were written. */
static size_t used(const uint8_t *stack, size_t length)
{
    size_t clean = 0;
    while (clean < length && stack[clean] == PAINT) {
        clean++;
    }
    return length - clean;
}

/* Makes calls in a small thread; what holds afterwards is looked at outside. */
static void test(const char *name, size_t length, uint32_t (*take)(void), int (*holds)(void))
{
    uint8_t *stack = new_stack(length);
    int status = 0;
    fflush(stdout);
    pid_t child = fork();
    if (child == 0) {
        struct calls calls = {take, HALL_OK};
        int good = take_in_thread(&calls, stack, length) && (holds == NULL || holds());
        fflush(stdout);
        _exit(good ? 0 : 1);
    }
    if (child < 0 || waitpid(child, &status, 0) != child) {
        fail("no process");
    }
    if (WIFEXITED(status) && WEXITSTATUS(status) == 0) {
        passed++;
        printf("%s: %lu of %lu bytes of a thread's stack\n", name, (unsigned long)used(stack, length),
               (unsigned long)length);
    } else if (WIFSIGNALED(status)) {
        failed++;
        printf("threads.c: %s in %lu bytes: ended by signal %d\n", name, (unsigned long)length,
               WTERMSIG(status));
    } else {
        failed++;
        printf("threads.c: %s in %lu bytes: a call was refused\n", name, (unsigned long)length);
    }
    munmap(stack - GUARD, GUARD + length);
}

static uint32_t take_nothing(void)
{
    return HALL_OK;
}

/* Makes the hall for the next test. */
static void prepare(uint32_t (*take)(void))
{
    if (take() != HALL_OK) {
        fail("a hall cannot be prepared");
    }
}

int main(void)
{
    test("no call", 20480, take_nothing, NULL);
    test("kinds 1 to 11", 20480, take_all_kinds, NULL);
    test("kinds 1 to 11, held", 20480, take_all_kinds_held, NULL);
    prepare(prepare_longest_order);
    test("the longest order", 65536, take_longest_order, is_longest_order);
    test("the longest order, held", 65536, take_longest_order_held, is_longest_order);
    prepare(prepare_new_view);
    test("the longest order in a settle", SETTLING, take_settle, is_longest_order);
    test("the longest order in a held settle", SETTLING, take_settle_held, is_longest_order);
    prepare(prepare_longest_settle);
    test("the longest settle", SETTLING, take_settle, is_longest_settle);
    test("the longest settle, held", SETTLING, take_settle_held, is_longest_settle);
    prepare(take_all_kinds_held);
    test("steps back", SETTLING, take_all_back, is_all_back);
    prepare(prepare_order_held);
    test("the longest order taken back", SETTLING, take_all_back, is_all_back);
    prepare(prepare_settle_held);
    test("the longest settle taken back, its last steps", SETTLING, take_all_back, is_all_back);
    printf("%u passed, %u failed\n", passed, failed);
    return failed != 0;
}
