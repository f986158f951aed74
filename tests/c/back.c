/*
 * Held steps, held settles and steps back. Each held call is compared with the
 * call that is not held, and the undo buffer, all of its bytes, with one that is
 * made here by docs/undo-buffer.md. Halls are kept before each action, and steps
 * back must come to them again. Then foreign writes, invented slots and buffers
 * that are not in form, slices of all lengths, and the order of refusals: a
 * refused call must leave all lent bytes as they were.
 *
 * The last line is 'N passed, M failed'.
 */
#include "check.h"
#include "kinds.h"

/* Where fields of a stored hall begin (docs/stored-form.md), and sizes of its
 * parts. */
enum {
    VIEW_COUNT = 1,
    VIEWS = 2,
    VIEW_SIZE = 5,
    ENTRY_COUNT = 162,
    ENTRIES = 163,
    ENTRY_SIZE = 10,
    ENTRY_VALUE = 1,
    ENTRY_SEQ = 9,
    RECORDERS = 803,
    RECORDER_SIZE = 286,
    NEXT_SEQ = 5,
    ENDPOINTS = 3091,
    ENDPOINT_SIZE = 203,
    QUEUES = 55059,
    QUEUE_SIZE = 145
};

/* The same of a slot (docs/undo-buffer.md). A part is an offset, a length and
 * room for its bytes. */
enum { SLOT = 521, FIRST = 16, FIRST_ROOM = 286, SECOND = 310, SECOND_ROOM = 203, LENGTH = 4, BYTES = 8 };

struct part {
    size_t offset, length;
};

/* -- The undo buffer as the page says it is ------------------------------- */

static void put_word(uint8_t *at, size_t word)
{
    for (size_t i = 0; i < 4; i++) {
        at[i] = (uint8_t)(word >> 8 * i & 0xff);
    }
}

static struct part recorder_part(uint32_t r)
{
    return (struct part){RECORDERS + (r - 1) * RECORDER_SIZE, RECORDER_SIZE};
}

static struct part entry_part(size_t index)
{
    return (struct part){ENTRIES + index * ENTRY_SIZE, ENTRY_SIZE};
}

/* The index of a formed view. */
static size_t view_index(const uint8_t *hall, uint32_t number)
{
    size_t i = 0;
    while (i < hall[VIEW_COUNT] && hall_word(hall + VIEWS + i * VIEW_SIZE, 0) != number) {
        i++;
    }
    return i;
}

static struct part endpoint_part(const uint8_t *hall, uint32_t r, uint32_t view)
{
    size_t row = (r - 1) * (size_t)(HALL_MAX_VIEWS * ENDPOINT_SIZE);
    return (struct part){ENDPOINTS + row + view_index(hall, view) * ENDPOINT_SIZE, ENDPOINT_SIZE};
}

/* The index of the first entry that waits at a recorder. */
static size_t first_waiting(const uint8_t *hall, uint32_t r)
{
    size_t i = 0;
    while (i < hall[ENTRY_COUNT] && (hall[entry_part(i).offset] != r || hall[entry_part(i).offset + ENTRY_SEQ] != 0)) {
        i++;
    }
    return i;
}

/* The two parts of an action that a hall accepts. */
static void parts_of(const uint8_t *hall, const uint32_t *words, struct part *first, struct part *second)
{
    const struct part none = {0, 0};
    const uint32_t r = words[1];
    switch (words[0]) {
    case HALL_SUBMIT:
        *first = entry_part(hall[ENTRY_COUNT]);
        *second = (struct part){ENTRY_COUNT, 1};
        break;
    case HALL_LABEL:
        *first = recorder_part(r);
        *second = entry_part(first_waiting(hall, r));
        break;
    case HALL_FORM:
        *first = (struct part){VIEWS + (size_t)hall[VIEW_COUNT] * VIEW_SIZE, VIEW_SIZE};
        *second = (struct part){VIEW_COUNT, 1};
        break;
    case HALL_PLACE:
        *first = (struct part){QUEUES + view_index(hall, words[2]) * QUEUE_SIZE, QUEUE_SIZE};
        *second = endpoint_part(hall, r, words[2]);
        break;
    case HALL_ENTER:
    case HALL_CONFIRM:
    case HALL_DELIVER:
        *first = recorder_part(r);
        *second = none;
        break;
    default:
        *first = recorder_part(r);
        *second = endpoint_part(hall, r, hall_word(hall + first->offset, 0));
        break;
    }
}

static void put_part(uint8_t *to, struct part part, const uint8_t *bytes)
{
    put_word(to, part.offset);
    put_word(to + LENGTH, part.length);
    memcpy(to + BYTES, bytes, part.length);
}

/* The slot at an index of a buffer. */
static uint8_t *slot_at(uint8_t *undo, size_t index)
{
    return undo + 1 + index * SLOT;
}

/* A new slot at the end of a buffer, blank but for its words. */
static uint8_t *push_words(uint8_t *undo, const uint32_t *words)
{
    if (undo[0] == HALL_MAX_UNDO) {
        memmove(slot_at(undo, 0), slot_at(undo, 1), (HALL_MAX_UNDO - 1) * SLOT);
        undo[0]--;
    }
    uint8_t *slot = slot_at(undo, undo[0]);
    memset(slot, 0, SLOT);
    for (size_t i = 0; i < 4; i++) {
        put_word(slot + 4 * i, words[i]);
    }
    undo[0]++;
    return slot;
}

/* Holds an action that a hall is about to accept. */
static void push(uint8_t *undo, const uint8_t *hall, const uint32_t *words)
{
    struct part first, second;
    parts_of(hall, words, &first, &second);
    uint8_t *slot = push_words(undo, words);
    put_part(slot + FIRST, first, hall + first.offset);
    put_part(slot + SECOND, second, hall + second.offset);
}

static void pop(uint8_t *undo)
{
    undo[0]--;
    memset(slot_at(undo, undo[0]), 0, SLOT);
}

/* -- Calls ---------------------------------------------------------------- */

/* A hall, its undo buffer, and what the buffer should be. */
struct bench {
    uint8_t *hall, *undo, *wanted;
};

static uint8_t *copy_of(const uint8_t *bytes, size_t length)
{
    uint8_t *copy = filled(length, 0);
    memcpy(copy, bytes, length);
    return copy;
}

/* A hall of n recorders just opened, and an empty buffer. */
static struct bench open_bench(uint32_t n, uint32_t founders)
{
    struct bench bench = {filled(HALL_LENGTH, 0x5a), filled(HALL_UNDO_LENGTH, 0), filled(HALL_UNDO_LENGTH, 0)};
    CHECK(hall_open_built_in(bench.hall, HALL_LENGTH, n, founders) == 0);
    return bench;
}

static void free_bench(struct bench *bench)
{
    free(bench->wanted);
    free(bench->undo);
    free(bench->hall);
}

static int hall_is(const struct bench *bench, const uint8_t *hall)
{
    return memcmp(bench->hall, hall, HALL_LENGTH) == 0;
}

static int undo_is_wanted(const struct bench *bench)
{
    return memcmp(bench->undo, bench->wanted, HALL_UNDO_LENGTH) == 0;
}

static uint32_t step(uint8_t *hall, const uint32_t *words, uint8_t *answer)
{
    return hall_step(hall, HALL_LENGTH, words[0], words[1], words[2], words[3], answer, HALL_ANSWER_LENGTH);
}

/* A step that is not held: a foreign write. */
static int steps_apart(uint8_t *hall, uint32_t k, uint32_t r, uint32_t a, uint32_t b)
{
    const uint32_t words[4] = {k, r, a, b};
    uint8_t answer[HALL_ANSWER_LENGTH];
    return step(hall, words, answer) == 0;
}

/* Whether a held step gives a number, with the answer and the hall of a step
 * that is not held; it is then held, or else leaves no trace. */
static int held_gives(struct bench *bench, const uint32_t *words, uint32_t wanted)
{
    uint8_t *hall = copy_of(bench->hall, HALL_LENGTH);
    uint8_t *answer = filled(HALL_ANSWER_LENGTH, 0xa5);
    uint8_t *other = filled(HALL_ANSWER_LENGTH, 0xa5);
    uint32_t number = hall_step_held(bench->hall, HALL_LENGTH, bench->undo, HALL_UNDO_LENGTH, words[0], words[1],
                                     words[2], words[3], answer, HALL_ANSWER_LENGTH);
    if (number == 0) {
        push(bench->wanted, hall, words);
    }
    int ok = number == wanted && step(hall, words, other) == wanted && hall_is(bench, hall) &&
             memcmp(answer, other, HALL_ANSWER_LENGTH) == 0 && undo_is_wanted(bench);
    free(other);
    free(answer);
    free(hall);
    return ok;
}

static int steps(struct bench *bench, uint32_t k, uint32_t r, uint32_t a, uint32_t b)
{
    const uint32_t words[4] = {k, r, a, b};
    return held_gives(bench, words, HALL_OK);
}

static int refused(struct bench *bench, uint32_t k, uint32_t r, uint32_t a, uint32_t b, uint32_t number)
{
    const uint32_t words[4] = {k, r, a, b};
    return held_gives(bench, words, number);
}

/* Whether the newest action is taken back, which comes to this hall. */
static int steps_back_to(struct bench *bench, const uint8_t *hall)
{
    uint32_t number = hall_step_back(bench->hall, HALL_LENGTH, bench->undo, HALL_UNDO_LENGTH);
    if (number == 0) {
        pop(bench->wanted);
    }
    return number == 0 && hall_is(bench, hall) && undo_is_wanted(bench);
}

/* Whether a step back is refused with 43 and leaves both. */
static int stays(struct bench *bench)
{
    uint8_t *hall = copy_of(bench->hall, HALL_LENGTH);
    uint8_t *undo = copy_of(bench->undo, HALL_UNDO_LENGTH);
    uint32_t number = hall_step_back(bench->hall, HALL_LENGTH, bench->undo, HALL_UNDO_LENGTH);
    int ok = number == HALL_REFUSED_UNDO && hall_is(bench, hall) &&
             memcmp(bench->undo, undo, HALL_UNDO_LENGTH) == 0;
    free(undo);
    free(hall);
    return ok;
}

/* Whether a held settle takes so many steps, with the answer and the hall of a
 * settle that is not held. What is held is for the caller to look at. */
static int settles(struct bench *bench, uint32_t count)
{
    const uint32_t words[] = {count};
    uint8_t *hall = copy_of(bench->hall, HALL_LENGTH);
    uint8_t *answer = filled(HALL_ANSWER_LENGTH, 0xa5);
    uint32_t number = hall_settle_held(bench->hall, HALL_LENGTH, bench->undo, HALL_UNDO_LENGTH, answer,
                                       HALL_ANSWER_LENGTH);
    int ok = number == 0 && words_are(answer, 0, words, 1) &&
             hall_settle(hall, HALL_LENGTH, answer, HALL_ANSWER_LENGTH) == 0 && words_are(answer, 0, words, 1) &&
             hall_is(bench, hall);
    free(answer);
    free(hall);
    return ok;
}

/* -- Steps ---------------------------------------------------------------- */

/* The example of docs/undo-buffer.md. */
static void example(void)
{
    static const uint8_t submit[] = {1, 1, 0, 0, 0, 1, 0, 0, 0, 0xbc, 2, 0, 0, 0, 0, 0, 0, 0xa3, 0, 0, 0, 0x0a};
    static const uint8_t submit_second[] = {0xa2, 0, 0, 0, 1};
    static const uint8_t label[] = {2, 0, 0, 0, 1, 0, 0, 0, 0, 0, 0, 0, 0, 0, 0, 0, 0x23, 3, 0, 0, 0x1e, 1, 0, 0, 1};
    static const uint8_t label_second[] = {0xa3, 0, 0, 0, 0x0a, 0, 0, 0, 1, 0xbc, 2};
    uint8_t wanted[HALL_UNDO_LENGTH] = {0};
    struct bench bench = open_bench(3, 7);

    CHECK(steps(&bench, HALL_SUBMIT, 1, 700, 0));
    memcpy(wanted, submit, sizeof submit);
    memcpy(wanted + 1 + 310, submit_second, sizeof submit_second);
    CHECK(memcmp(bench.undo, wanted, HALL_UNDO_LENGTH) == 0);
    CHECK(steps(&bench, HALL_LABEL, 1, 0, 0));
    wanted[0] = 2;
    memcpy(wanted + 522, label, sizeof label);
    wanted[522 + 24 + 138] = 1;
    memcpy(wanted + 522 + 310, label_second, sizeof label_second);
    CHECK(memcmp(bench.undo, wanted, HALL_UNDO_LENGTH) == 0);
    CHECK(hall_step_back(bench.hall, HALL_LENGTH, bench.undo, HALL_UNDO_LENGTH) == 0);
    CHECK(hall_step_back(bench.hall, HALL_LENGTH, bench.undo, HALL_UNDO_LENGTH) == 0);
    CHECK(holds_only(bench.undo, 0, HALL_UNDO_LENGTH, 0));
    free_bench(&bench);
}

/* Each action is taken, taken back and taken again; at the end the newest 16 are
 * taken back in turn, and no more. */
static void each_kind(void)
{
    uint8_t *before[ALL_KINDS];
    struct bench bench = open_bench(2, 3);

    CHECK(stays(&bench));
    for (size_t i = 0; i < ALL_KINDS; i++) {
        before[i] = copy_of(bench.hall, HALL_LENGTH);
        CHECK(held_gives(&bench, all_kinds[i], HALL_OK));
        CHECK(bench.undo[0] == (i < HALL_MAX_UNDO ? i + 1 : HALL_MAX_UNDO));
        CHECK(!hall_is(&bench, before[i]));
        CHECK(steps_back_to(&bench, before[i]));
        CHECK(bench.undo[0] == (i < HALL_MAX_UNDO ? i : HALL_MAX_UNDO - 1));
        CHECK(held_gives(&bench, all_kinds[i], HALL_OK));
    }
    for (size_t i = ALL_KINDS; i > ALL_KINDS - HALL_MAX_UNDO; i--) {
        CHECK(steps_back_to(&bench, before[i - 1]));
    }
    CHECK(holds_only(bench.undo, 0, HALL_UNDO_LENGTH, 0));
    CHECK(stays(&bench));
    CHECK(hall_is(&bench, before[ALL_KINDS - HALL_MAX_UNDO]));
    for (size_t i = 0; i < ALL_KINDS; i++) {
        free(before[i]);
    }
    free_bench(&bench);
}

/* A 17th action pushes out the oldest, which does not come back. */
static void seventeenth(void)
{
    uint8_t *before[HALL_MAX_UNDO + 1];
    struct bench bench = open_bench(8, 255);

    for (uint32_t i = 0; i <= HALL_MAX_UNDO; i++) {
        before[i] = copy_of(bench.hall, HALL_LENGTH);
        CHECK(steps(&bench, HALL_SUBMIT, i % 8 + 1, 100 + i, 0));
        CHECK(hall_word(slot_at(bench.undo, 0), 2) == (i < HALL_MAX_UNDO ? 100 : 101));
    }
    CHECK(bench.undo[0] == HALL_MAX_UNDO);
    CHECK(steps_back_to(&bench, before[HALL_MAX_UNDO]));
    CHECK(bench.undo[0] == HALL_MAX_UNDO - 1);
    for (size_t i = HALL_MAX_UNDO; i > 1; i--) {
        CHECK(steps_back_to(&bench, before[i - 1]));
    }
    CHECK(stays(&bench));
    CHECK(hall_is(&bench, before[1]));
    CHECK(holds_only(bench.undo, 0, HALL_UNDO_LENGTH, 0));
    for (size_t i = 0; i <= HALL_MAX_UNDO; i++) {
        free(before[i]);
    }
    free_bench(&bench);
}

/* Refused actions leave no trace, each with its number, in an order of refusals
 * that is that of a step. */
static void refused_actions(void)
{
    struct bench bench = open_bench(3, 3);
    uint8_t *opened = copy_of(bench.hall, HALL_LENGTH);

    CHECK(refused(&bench, HALL_LABEL, 1, 0, 0, HALL_REFUSED_NOTHING));
    CHECK(steps(&bench, HALL_SUBMIT, 1, 5, 0));
    CHECK(refused(&bench, 0, 0, 0, 0, HALL_REFUSED_KIND));
    CHECK(refused(&bench, 12, 9, 1, 1, HALL_REFUSED_KIND));
    CHECK(refused(&bench, HALL_SUBMIT, 4, 5, 1, HALL_REFUSED_RECORDER));
    CHECK(refused(&bench, HALL_LABEL, 1, 1, 0, HALL_REFUSED_UNUSED));
    CHECK(refused(&bench, HALL_ENTER, 1, 0, 0, HALL_REFUSED_VIEW_NUMBER));
    CHECK(refused(&bench, HALL_FORM, 0, 2, 8, HALL_REFUSED_SET));
    CHECK(refused(&bench, HALL_FORM, 0, 1, 1, HALL_REFUSED_NOT_RISING));
    CHECK(refused(&bench, HALL_ENTER, 1, 2, 0, HALL_REFUSED_NOT_FORMED));
    CHECK(refused(&bench, HALL_PLACE, 3, 1, 0, HALL_REFUSED_NO_MEMBER));
    CHECK(refused(&bench, HALL_ENTER, 1, 1, 0, HALL_REFUSED_NOT_ABOVE));
    CHECK(refused(&bench, HALL_RECEIVE, 3, 0, 0, HALL_REFUSED_PHASE));
    CHECK(refused(&bench, HALL_RECEIVE, 1, 0, 0, HALL_REFUSED_NOTHING));
    CHECK(bench.undo[0] == 1);
    CHECK(steps_back_to(&bench, opened));
    CHECK(refused(&bench, HALL_LABEL, 1, 0, 0, HALL_REFUSED_NOTHING));

    for (uint32_t i = 0; i < 4; i++) {
        CHECK(held_gives(&bench, all_kinds[i], HALL_OK));
    }
    CHECK(steps(&bench, HALL_RECEIVE, 1, 0, 0));
    CHECK(refused(&bench, HALL_SAFE, 1, 0, 0, HALL_REFUSED_NOT_YET));
    CHECK(steps(&bench, HALL_SUBMIT, 1, 6, 0));
    bench.hall[RECORDERS + NEXT_SEQ] = HALL_MAX_SEQ;
    CHECK(refused(&bench, HALL_LABEL, 1, 0, 0, HALL_REFUSED_FULL));
    for (uint32_t i = 2; i < HALL_MAX_ENTRIES; i++) {
        CHECK(steps(&bench, HALL_SUBMIT, 3, i, 0));
    }
    CHECK(refused(&bench, HALL_SUBMIT, 3, 5, 0, HALL_REFUSED_TOO_MANY));
    free(opened);
    free_bench(&bench);
}

/* -- Settles -------------------------------------------------------------- */

/* The order in which a turn of a settle tries the kinds. */
static const uint32_t settle_kinds[] = {
    HALL_ENTER,   HALL_SEND_SUMMARY, HALL_SEND_ENTRY, HALL_LABEL,   HALL_PLACE,
    HALL_RECEIVE, HALL_SAFE,         HALL_CONFIRM,    HALL_DELIVER,
};

enum { SETTLE_KINDS = sizeof settle_kinds / sizeof settle_kinds[0], MOST_KEPT = 64 };

/* Takes the first action that a turn of a settle finds, and holds it in the
 * buffer that is wanted. Whether there is one. */
static int take_turn(uint8_t *hall, uint8_t *wanted, uint32_t n, uint32_t view)
{
    uint8_t answer[HALL_ANSWER_LENGTH];
    for (size_t i = 0; i < SETTLE_KINDS; i++) {
        const uint32_t k = settle_kinds[i];
        for (uint32_t r = 1; r <= n; r++) {
            const uint32_t words[4] = {k, r, k == HALL_ENTER || k == HALL_PLACE ? view : 0, 0};
            uint8_t *before = copy_of(hall, HALL_LENGTH);
            int taken = step(hall, words, answer) == 0;
            if (taken) {
                push(wanted, before, words);
            }
            free(before);
            if (taken) {
                return 1;
            }
        }
    }
    return 0;
}

/* A settle in a view of all n recorders is held as the actions of its run, and
 * is taken back one by one. After so many steps back it takes so many again. */
static void settle_taken_back(uint32_t n, uint32_t entries, uint32_t count)
{
    uint8_t *halls[MOST_KEPT];
    uint32_t taken = 0;
    struct bench bench = open_bench(n, (1u << n) - 1);
    for (uint32_t i = 0; i < entries; i++) {
        CHECK(steps(&bench, HALL_SUBMIT, i % n + 1, 700 + i, 0));
    }
    CHECK(steps(&bench, HALL_FORM, 0, 2, (1u << n) - 1));
    size_t before = bench.undo[0];

    uint8_t *hall = copy_of(bench.hall, HALL_LENGTH);
    do {
        halls[taken++] = copy_of(hall, HALL_LENGTH);
    } while (taken < MOST_KEPT && take_turn(hall, bench.wanted, n, 2));
    taken--;
    CHECK(taken == count);
    CHECK(settles(&bench, count));
    CHECK(hall_is(&bench, hall));
    CHECK(undo_is_wanted(&bench));
    CHECK(settles(&bench, 0));
    CHECK(undo_is_wanted(&bench));

    size_t held = before + count < HALL_MAX_UNDO ? before + count : HALL_MAX_UNDO;
    uint32_t gone = 0;
    CHECK(bench.undo[0] == held);
    for (; gone < count && gone < held; gone++) {
        CHECK(steps_back_to(&bench, halls[count - gone - 1]));
    }
    uint8_t *settled = copy_of(bench.wanted, HALL_UNDO_LENGTH);
    CHECK(settles(&bench, gone));
    CHECK(hall_is(&bench, hall));
    CHECK(bench.undo[0] == settled[0] + gone);
    CHECK(memcmp(bench.undo + 1, settled + 1, (size_t)settled[0] * SLOT) == 0);

    free(settled);
    free(hall);
    for (uint32_t i = 0; i <= taken; i++) {
        free(halls[i]);
    }
    free_bench(&bench);
}

static void settles_taken_back(void)
{
    settle_taken_back(1, 0, 5);
    settle_taken_back(1, 1, 12);
    settle_taken_back(2, 1, 25);
    settle_taken_back(3, 2, 57);
}

/* Of the longest settle the newest 16 actions are held: as many steps back are
 * taken, and a settle then takes 16 steps and comes to the same bytes. */
static void longest_settle(void)
{
    struct bench bench = open_bench(8, 255);
    for (uint32_t i = 0; i < HALL_MAX_ENTRIES; i++) {
        CHECK(steps(&bench, HALL_SUBMIT, i % 8 + 1, i, 0));
    }
    CHECK(steps(&bench, HALL_FORM, 0, 2, 255));
    CHECK(settles(&bench, HALL_MAX_SETTLE_STEPS));
    uint8_t *hall = copy_of(bench.hall, HALL_LENGTH);
    uint8_t *undo = copy_of(bench.undo, HALL_UNDO_LENGTH);
    CHECK(undo[0] == HALL_MAX_UNDO);
    for (uint32_t i = 0; i < HALL_MAX_UNDO; i++) {
        /* The last actions of a settle deliver. */
        CHECK(hall_word(slot_at(bench.undo, HALL_MAX_UNDO - 1 - i), 0) == HALL_DELIVER);
        CHECK(hall_step_back(bench.hall, HALL_LENGTH, bench.undo, HALL_UNDO_LENGTH) == 0);
    }
    CHECK(stays(&bench));
    CHECK(settles(&bench, HALL_MAX_UNDO));
    CHECK(hall_is(&bench, hall));
    CHECK(memcmp(bench.undo, undo, HALL_UNDO_LENGTH) == 0);
    free(undo);
    free(hall);
    free_bench(&bench);
}

/* -- Foreign writes and invented slots ------------------------------------ */

/* Actions that do not touch each other's parts: the newest one held is taken
 * back, and the others' stay. */
static void foreign_elsewhere(void)
{
    struct bench bench = open_bench(3, 7);
    struct bench other = open_bench(3, 7);

    CHECK(steps(&bench, HALL_SUBMIT, 1, 5, 0));
    CHECK(steps(&bench, HALL_FORM, 0, 2, 7));
    CHECK(steps(&bench, HALL_LABEL, 1, 0, 0));
    CHECK(steps_apart(bench.hall, HALL_ENTER, 3, 2, 0));
    CHECK(steps_apart(other.hall, HALL_SUBMIT, 1, 5, 0));
    CHECK(steps_apart(other.hall, HALL_FORM, 0, 2, 7));
    CHECK(steps_apart(other.hall, HALL_ENTER, 3, 2, 0));
    CHECK(steps_back_to(&bench, other.hall));
    /* Without the view, recorder 3 would be in none that is formed. */
    CHECK(stays(&bench));
    CHECK(bench.undo[0] == 2);
    /* Bytes that no action gives are kept as well. */
    CHECK(steps(&bench, HALL_ENTER, 1, 2, 0));
    bench.hall[ENTRIES + ENTRY_VALUE] = other.hall[ENTRIES + ENTRY_VALUE] = 77;
    CHECK(steps_back_to(&bench, other.hall));
    free_bench(&other);
    free_bench(&bench);
}

/* 43 for each of its reasons: the hall that would be restored is none, it
 * refuses the action, the action leads to other bytes. */
static void foreign_inside(void)
{
    struct bench bench = open_bench(3, 7);
    uint8_t *opened = copy_of(bench.hall, HALL_LENGTH);

    /* A second entry past the number of entries. */
    CHECK(steps(&bench, HALL_SUBMIT, 1, 700, 0));
    uint8_t *submitted = copy_of(bench.hall, HALL_LENGTH);
    CHECK(steps_apart(bench.hall, HALL_SUBMIT, 1, 6, 0));
    CHECK(stays(&bench));

    /* Another value than the action gives. */
    memcpy(bench.hall, submitted, HALL_LENGTH);
    bench.hall[ENTRIES + ENTRY_VALUE]++;
    CHECK(stays(&bench));

    /* Opened anew: there the action leads to a hall with an entry. */
    memcpy(bench.hall, opened, HALL_LENGTH);
    CHECK(stays(&bench));

    /* The present hall again. */
    memcpy(bench.hall, submitted, HALL_LENGTH);
    CHECK(steps_back_to(&bench, opened));

    /* Taken back by hand, the action is still held. */
    CHECK(steps(&bench, HALL_SUBMIT, 1, 700, 0));
    CHECK(steps(&bench, HALL_FORM, 0, 2, 7));
    CHECK(steps(&bench, HALL_ENTER, 2, 2, 0));
    memcpy(bench.hall, submitted, HALL_LENGTH);
    CHECK(stays(&bench));
    CHECK(bench.undo[0] == 3);

    /* A hall in which the action is refused: the view is no longer above. */
    uint8_t *slot = slot_at(bench.undo, 2);
    memcpy(bench.hall, submitted, HALL_LENGTH);
    put_part(slot + FIRST, recorder_part(2), opened + recorder_part(2).offset);
    put_word(slot + 8, 1);
    CHECK(stays(&bench));
    free(submitted);
    free(opened);
    free_bench(&bench);
}

/* A slot in form is judged by the check alone. */
static void invented_slots(void)
{
    static const uint32_t submit[4] = {HALL_SUBMIT, 1, 700, 0};
    static const uint8_t count_and_junk[1 + ENTRY_SIZE] = {0, 3, 3, 3, 3, 3, 3, 3, 3, 3, 3};
    static const uint8_t zeros[SECOND_ROOM] = {0};
    const struct part cell = {ENTRIES, ENTRY_SIZE}, both = {ENTRY_COUNT, 1 + ENTRY_SIZE};
    struct bench bench = open_bench(3, 7);
    uint8_t *opened = copy_of(bench.hall, HALL_LENGTH);
    CHECK(steps_apart(bench.hall, HALL_SUBMIT, 1, 700, 0));
    uint8_t *submitted = copy_of(bench.hall, HALL_LENGTH);

    /* The two parts in one, and an empty part at the hall's end. */
    uint8_t *slot = push_words(bench.undo, submit);
    put_part(slot + FIRST, both, zeros);
    put_part(slot + SECOND, (struct part){HALL_LENGTH, 0}, zeros);
    memcpy(bench.wanted, bench.undo, HALL_UNDO_LENGTH);
    CHECK(steps_back_to(&bench, opened));

    /* The second part stands where it overlaps the first. */
    memcpy(bench.hall, submitted, HALL_LENGTH);
    slot = push_words(bench.undo, submit);
    put_part(slot + FIRST, both, count_and_junk);
    put_part(slot + SECOND, cell, zeros);
    memcpy(bench.wanted, bench.undo, HALL_UNDO_LENGTH);
    CHECK(steps_back_to(&bench, opened));
    memcpy(bench.hall, submitted, HALL_LENGTH);
    slot = push_words(bench.undo, submit);
    put_part(slot + FIRST, cell, zeros);
    put_part(slot + SECOND, both, count_and_junk);
    CHECK(stays(&bench));

    /* Words of no action, of a refused one, and of an action that leads elsewhere. */
    memset(bench.undo, 0, HALL_UNDO_LENGTH);
    slot = push_words(bench.undo, submit);
    put_part(slot + FIRST, both, zeros);
    put_word(slot, 99);
    CHECK(stays(&bench));
    put_word(slot, HALL_SUBMIT);
    put_word(slot + 4, 4);
    CHECK(stays(&bench));
    put_word(slot + 4, 2);
    CHECK(stays(&bench));
    put_word(slot + 4, UINT32_MAX);
    CHECK(stays(&bench));
    put_word(slot + 4, 1);
    memcpy(bench.wanted, bench.undo, HALL_UNDO_LENGTH);
    CHECK(steps_back_to(&bench, opened));

    /* An action that would lead from the present hall elsewhere: empty parts. */
    push_words(bench.undo, submit);
    CHECK(stays(&bench));
    /* Such a buffer is in form, so that actions are held in it. */
    memcpy(bench.wanted, bench.undo, HALL_UNDO_LENGTH);
    CHECK(steps(&bench, HALL_SUBMIT, 2, 5, 0));
    CHECK(bench.undo[0] == 2);
    CHECK(steps_back_to(&bench, opened));
    CHECK(stays(&bench));
    free(submitted);
    free(opened);
    free_bench(&bench);
}

/* -- Refused calls -------------------------------------------------------- */

enum call { STEP, SETTLE, BACK };

/* What is lent: the first bytes of a hall and of a buffer, and room. */
struct lent {
    const uint8_t *hall;
    size_t hall_len;
    const uint8_t *undo;
    size_t undo_len;
    size_t answer_len;
};

/* Whether a call is refused with a number and leaves three slices of just these
 * lengths. */
static int call_refused(enum call call, struct lent lent, const uint32_t *words, uint32_t wanted)
{
    uint8_t *hall = copy_of(lent.hall, lent.hall_len);
    uint8_t *undo = copy_of(lent.undo, lent.undo_len);
    uint8_t *answer = filled(lent.answer_len, 0xa5);
    uint32_t number;
    if (call == STEP) {
        number = hall_step_held(hall, lent.hall_len, undo, lent.undo_len, words[0], words[1], words[2], words[3],
                                answer, lent.answer_len);
    } else if (call == SETTLE) {
        number = hall_settle_held(hall, lent.hall_len, undo, lent.undo_len, answer, lent.answer_len);
    } else {
        number = hall_step_back(hall, lent.hall_len, undo, lent.undo_len);
    }
    int ok = number == wanted && memcmp(hall, lent.hall, lent.hall_len) == 0 &&
             memcmp(undo, lent.undo, lent.undo_len) == 0 && holds_only(answer, 0, lent.answer_len, 0xa5);
    free(answer);
    free(undo);
    free(hall);
    if (number != wanted) {
        printf("number %lu\n", (unsigned long)number);
    }
    return ok;
}

/* A hall with an entry that waits, held. */
static struct bench one_held(uint32_t n, uint32_t founders)
{
    struct bench bench = open_bench(n, founders);
    CHECK(steps(&bench, HALL_SUBMIT, 1, 5, 0));
    return bench;
}

static struct lent lent_of(const struct bench *bench)
{
    return (struct lent){bench->hall, HALL_LENGTH, bench->undo, HALL_UNDO_LENGTH, HALL_ANSWER_LENGTH};
}

/* Whether all three calls give 43 on a buffer. */
static int all_refuse(const struct bench *bench)
{
    static const uint32_t label[4] = {HALL_LABEL, 1, 0, 0};
    const struct lent lent = lent_of(bench);
    return call_refused(STEP, lent, label, HALL_REFUSED_UNDO) &&
           call_refused(SETTLE, lent, NULL, HALL_REFUSED_UNDO) && call_refused(BACK, lent, NULL, HALL_REFUSED_UNDO);
}

/* Buffers that are not in form, at the edges of each rule. */
static void wrong_forms(void)
{
    struct bench bench = one_held(3, 7);
    uint8_t *opened = filled(HALL_LENGTH, 0);
    uint8_t *right = copy_of(bench.undo, HALL_UNDO_LENGTH);
    const struct {
        size_t at, room;
    } parts[] = {{1 + FIRST, FIRST_ROOM}, {1 + SECOND, SECOND_ROOM}};
    CHECK(hall_open_built_in(opened, HALL_LENGTH, 3, 7) == 0);

    /* The count: above 16, and less or more than the slots. */
    bench.undo[0] = HALL_MAX_UNDO + 1;
    CHECK(all_refuse(&bench));
    bench.undo[0] = 255;
    CHECK(all_refuse(&bench));
    bench.undo[0] = 0;
    CHECK(all_refuse(&bench));

    /* Not zero past the last slot: the first byte and the last. */
    memcpy(bench.undo, right, HALL_UNDO_LENGTH);
    bench.undo[1 + SLOT] = 1;
    CHECK(all_refuse(&bench));
    memcpy(bench.undo, right, HALL_UNDO_LENGTH);
    bench.undo[HALL_UNDO_LENGTH - 1] = 1;
    CHECK(all_refuse(&bench));

    for (size_t i = 0; i < 2; i++) {
        uint8_t *part = bench.undo + parts[i].at;
        const size_t room = parts[i].room, length = i == 0 ? ENTRY_SIZE : 1;
        /* Not zero past the length. */
        memcpy(bench.undo, right, HALL_UNDO_LENGTH);
        part[BYTES + length] = 1;
        CHECK(all_refuse(&bench));
        memcpy(bench.undo, right, HALL_UNDO_LENGTH);
        part[BYTES + room - 1] = 1;
        CHECK(all_refuse(&bench));
        /* A length above the room. */
        memcpy(bench.undo, right, HALL_UNDO_LENGTH);
        put_word(part + LENGTH, room + 1);
        CHECK(all_refuse(&bench));
        put_word(part + LENGTH, UINT32_MAX);
        CHECK(all_refuse(&bench));
        put_word(part + LENGTH, length + 256 * 256);
        CHECK(all_refuse(&bench));
        /* Past the end of the hall. */
        memcpy(bench.undo, right, HALL_UNDO_LENGTH);
        put_word(part, HALL_LENGTH - length + 1);
        CHECK(all_refuse(&bench));
        put_word(part, UINT32_MAX);
        CHECK(all_refuse(&bench));
        put_word(part, (size_t)UINT32_MAX + 1 - length);
        CHECK(all_refuse(&bench));
        put_word(part, HALL_LENGTH + 1);
        memset(part + LENGTH, 0, 4);
        memset(part + BYTES, 0, room);
        CHECK(all_refuse(&bench));
    }

    /* 16 slots with one of these faults in the last. */
    memcpy(bench.undo, right, HALL_UNDO_LENGTH);
    for (uint32_t i = 2; i <= HALL_MAX_UNDO; i++) {
        CHECK(steps(&bench, HALL_SUBMIT, 1, i, 0));
    }
    uint8_t *last = slot_at(bench.undo, HALL_MAX_UNDO - 1);
    last[SLOT - 1] = 1;
    CHECK(all_refuse(&bench));
    last[SLOT - 1] = 0;
    put_word(last + FIRST + LENGTH, FIRST_ROOM + 1);
    CHECK(all_refuse(&bench));
    put_word(last + FIRST + LENGTH, ENTRY_SIZE);
    CHECK(steps(&bench, HALL_SUBMIT, 1, 17, 0));

    /* All of it right again. */
    struct bench again = one_held(3, 7);
    CHECK(memcmp(again.undo, right, HALL_UNDO_LENGTH) == 0);
    CHECK(steps_back_to(&again, opened));
    free_bench(&again);
    free(right);
    free(opened);
    free_bench(&bench);
}

/* Slices that are too short, and which number comes first. */
static void refusals_in_order(void)
{
    static const uint32_t no_kind[4] = {12, 9, 0, 0}, no_recorder[4] = {HALL_SUBMIT, 9, 5, 0};
    static const uint32_t submit[4] = {HALL_SUBMIT, 1, 5, 0}, early[4] = {HALL_RECEIVE, 1, 0, 0};
    struct bench bench = one_held(3, 7);
    struct bench yard = open_bench(3, 6); /* {2, 3} is not primary */
    struct bench full = one_held(1, 1);
    uint8_t *junk = filled(HALL_LENGTH, 0x5a);
    const struct lent right = lent_of(&bench);
    struct lent lent = right;
    full.hall[RECORDERS + NEXT_SEQ] = HALL_MAX_SEQ;

    /* All at once, then one after another made right. */
    lent = (struct lent){junk, HALL_LENGTH, junk, HALL_UNDO_LENGTH, 0};
    CHECK(call_refused(STEP, lent, no_kind, HALL_REFUSED_KIND));
    CHECK(call_refused(STEP, lent, no_recorder, HALL_REFUSED_BYTES));
    CHECK(call_refused(SETTLE, lent, NULL, HALL_REFUSED_BYTES));
    CHECK(call_refused(BACK, lent, NULL, HALL_REFUSED_BYTES));
    lent.hall = bench.hall;
    CHECK(call_refused(STEP, lent, no_kind, HALL_REFUSED_KIND));
    CHECK(call_refused(STEP, lent, no_recorder, HALL_REFUSED_UNDO));
    CHECK(call_refused(STEP, lent, early, HALL_REFUSED_UNDO));
    CHECK(call_refused(SETTLE, lent, NULL, HALL_REFUSED_UNDO));
    CHECK(call_refused(BACK, lent, NULL, HALL_REFUSED_UNDO));
    lent.hall = yard.hall;
    CHECK(call_refused(SETTLE, lent, NULL, HALL_REFUSED_NOT_PRIMARY));
    lent.hall = full.hall;
    CHECK(call_refused(SETTLE, lent, NULL, HALL_REFUSED_UNDO));
    lent.undo = full.undo;
    CHECK(call_refused(SETTLE, lent, NULL, HALL_REFUSED_FULL));
    lent.undo = bench.undo;
    lent.hall = yard.hall;
    CHECK(call_refused(SETTLE, lent, NULL, HALL_REFUSED_NOT_PRIMARY));
    lent.hall = bench.hall;
    CHECK(call_refused(STEP, lent, no_recorder, HALL_REFUSED_RECORDER));
    CHECK(call_refused(STEP, lent, early, HALL_REFUSED_NOTHING));
    CHECK(call_refused(STEP, lent, submit, HALL_REFUSED_SHORT));
    CHECK(call_refused(SETTLE, lent, NULL, HALL_REFUSED_SHORT));
    lent.answer_len = HALL_ANSWER_LENGTH - 1;
    CHECK(call_refused(STEP, lent, submit, HALL_REFUSED_SHORT));
    CHECK(call_refused(SETTLE, lent, NULL, HALL_REFUSED_SHORT));

    /* Short halls and buffers, none at all too. */
    for (size_t i = 0; i < 4; i++) {
        const size_t halls[] = {0, 1, HALL_LENGTH - 1, HALL_LENGTH - 4 * HALL_RECORDERS};
        const size_t undos[] = {0, 1, HALL_UNDO_LENGTH - 1, HALL_UNDO_LENGTH - SLOT};
        lent = right;
        lent.hall_len = halls[i];
        CHECK(call_refused(STEP, lent, submit, HALL_REFUSED_BYTES));
        CHECK(call_refused(SETTLE, lent, NULL, HALL_REFUSED_BYTES));
        CHECK(call_refused(BACK, lent, NULL, HALL_REFUSED_BYTES));
        lent.undo_len = undos[i];
        CHECK(call_refused(STEP, lent, submit, HALL_REFUSED_BYTES));
        CHECK(call_refused(BACK, lent, NULL, HALL_REFUSED_BYTES));
        lent.hall_len = HALL_LENGTH;
        CHECK(call_refused(STEP, lent, submit, HALL_REFUSED_UNDO));
        CHECK(call_refused(SETTLE, lent, NULL, HALL_REFUSED_UNDO));
        CHECK(call_refused(BACK, lent, NULL, HALL_REFUSED_UNDO));
    }

    /* None held. */
    lent = right;
    lent.undo = yard.undo;
    CHECK(call_refused(BACK, lent, NULL, HALL_REFUSED_UNDO));
    lent.hall = junk;
    CHECK(call_refused(BACK, lent, NULL, HALL_REFUSED_BYTES));
    free(junk);
    free_bench(&full);
    free_bench(&yard);
    free_bench(&bench);
}

/* Bytes past the end of longer slices stay, and no alignment is needed. */
static void longer_slices(void)
{
    enum { REST = 1000, ODD = 3 };
    const uint32_t done[] = {HALL_CASE_DONE}, settled[] = {7};
    struct bench bench = open_bench(1, 1);
    uint8_t *hall_memory = filled(ODD + HALL_LENGTH + REST, 0xa5), *hall = hall_memory + ODD;
    uint8_t *undo_memory = filled(ODD + HALL_UNDO_LENGTH + REST, 0xa5), *undo = undo_memory + ODD;
    uint8_t *answer_memory = filled(ODD + HALL_ANSWER_LENGTH + REST, 0xa5), *answer = answer_memory + ODD;
    uint8_t *opened = copy_of(bench.hall, HALL_LENGTH);
    memcpy(hall, bench.hall, HALL_LENGTH);
    memset(undo, 0, HALL_UNDO_LENGTH);

    CHECK(hall_step_held(hall, HALL_LENGTH + REST, undo, HALL_UNDO_LENGTH + REST, HALL_SUBMIT, 1, 5, 0, answer,
                         HALL_ANSWER_LENGTH + REST) == 0);
    CHECK(words_are(answer, REST, done, 1));
    CHECK(steps(&bench, HALL_SUBMIT, 1, 5, 0));
    CHECK(hall_is(&bench, hall) && memcmp(undo, bench.undo, HALL_UNDO_LENGTH) == 0);
    CHECK(hall_settle_held(hall, HALL_LENGTH + REST, undo, HALL_UNDO_LENGTH + REST, answer,
                           HALL_ANSWER_LENGTH + REST) == 0);
    CHECK(words_are(answer, REST, settled, 1));
    CHECK(settles(&bench, 7));
    CHECK(hall_is(&bench, hall) && memcmp(undo, bench.undo, HALL_UNDO_LENGTH) == 0);
    for (size_t i = 0; i < 8; i++) {
        CHECK(hall_step_back(hall, HALL_LENGTH + REST, undo, HALL_UNDO_LENGTH + REST) == 0);
        CHECK(holds_only(hall, HALL_LENGTH, HALL_LENGTH + REST, 0xa5));
        CHECK(holds_only(undo, HALL_UNDO_LENGTH, HALL_UNDO_LENGTH + REST, 0xa5));
    }
    CHECK(memcmp(hall, opened, HALL_LENGTH) == 0);
    CHECK(holds_only(undo, 0, HALL_UNDO_LENGTH, 0));
    CHECK(hall_step_back(hall, HALL_LENGTH + REST, undo, HALL_UNDO_LENGTH + REST) == HALL_REFUSED_UNDO);
    CHECK(holds_only(hall_memory, 0, ODD, 0xa5) && holds_only(hall, HALL_LENGTH, HALL_LENGTH + REST, 0xa5));
    CHECK(holds_only(undo_memory, 0, ODD, 0xa5) && holds_only(undo, HALL_UNDO_LENGTH, HALL_UNDO_LENGTH + REST, 0xa5));
    CHECK(holds_only(answer_memory, 0, ODD, 0xa5));
    free(opened);
    free(answer_memory);
    free(undo_memory);
    free(hall_memory);
    free_bench(&bench);
}

int main(void)
{
    example();
    each_kind();
    seventeenth();
    refused_actions();
    settles_taken_back();
    longest_settle();
    foreign_elsewhere();
    foreign_inside();
    invented_slots();
    wrong_forms();
    refusals_in_order();
    longer_slices();
    return end_checks();
}
