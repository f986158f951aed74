/*
 * Opens a hall, takes the steps of the bench card "the listing" and reads
 * pages, and checks every value that comes back. Goes through views with great
 * numbers. Reads the margins of opened halls, with the built-in row and with
 * votes. Settles halls. Checks halls. Writes and reads run files, with votes and
 * without, and lists them. Prints and reads lines of text. Then refused calls, each
 * of which must leave all lent bytes as they were.
 *
 * Each lent slice is allocated by itself with just the length that is lent, so
 * that a memory checker sees any access outside it. The files of examples/ are
 * found from this folder.
 *
 * The last line is 'N passed, M failed'.
 */
#include "check.h"

/* Takes a step with a fresh slice for the answer. */
static uint8_t *answer_of(uint8_t *hall, uint32_t k, uint32_t r, uint32_t a, uint32_t b, uint32_t *number)
{
    uint8_t *answer = filled(HALL_ANSWER_LENGTH, 0xa5);
    *number = hall_step(hall, HALL_LENGTH, k, r, a, b, answer, HALL_ANSWER_LENGTH);
    return answer;
}

/* Whether a step is performed with these words, the others 0. */
static int step_gives(uint8_t *hall, uint32_t k, uint32_t r, uint32_t a, const uint32_t *words, size_t count)
{
    uint32_t number;
    uint8_t *answer = answer_of(hall, k, r, a, 0, &number);
    int ok = number == 0 && words_are(answer, 0, words, count);
    free(answer);
    return ok;
}

static int step_is_done(uint8_t *hall, uint32_t k, uint32_t r, uint32_t a)
{
    const uint32_t done[] = {HALL_CASE_DONE};
    return step_gives(hall, k, r, a, done, 1);
}

static int view_is_formed(uint8_t *hall, uint32_t number, uint32_t set)
{
    uint32_t refusal;
    free(answer_of(hall, HALL_FORM, 0, number, set, &refusal));
    return refusal == 0;
}

/* Whether a step is refused with a number and leaves hall and answer. */
static int step_refused(uint8_t *hall, uint32_t k, uint32_t r, uint32_t a, uint32_t b, uint32_t wanted)
{
    uint32_t number;
    uint8_t *before = filled(HALL_LENGTH, 0);
    memcpy(before, hall, HALL_LENGTH);
    uint8_t *answer = answer_of(hall, k, r, a, b, &number);
    int ok = number == wanted && memcmp(before, hall, HALL_LENGTH) == 0 &&
             holds_only(answer, 0, HALL_ANSWER_LENGTH, 0xa5);
    free(answer);
    free(before);
    return ok;
}

/* Whether the page with a place has these words; the slice lent for it is
 * three bytes longer than a page. */
static int page_gives(const uint8_t *hall, uint32_t r, uint32_t place, const uint32_t *words, size_t count)
{
    uint8_t *page = filled(HALL_ANSWER_LENGTH + 3, 0xa5);
    uint32_t number = hall_page(hall, HALL_LENGTH, r, place, page, HALL_ANSWER_LENGTH + 3);
    int ok = number == 0 && words_are(page, 3, words, count);
    free(page);
    return ok;
}

static int page_refused(const uint8_t *hall, size_t hall_len, uint32_t r, uint32_t place, size_t page_len,
                        uint32_t wanted)
{
    uint8_t *page = filled(page_len, 0xa5);
    uint32_t number = hall_page(hall, hall_len, r, place, page, page_len);
    int ok = number == wanted && holds_only(page, 0, page_len, 0xa5);
    free(page);
    return ok;
}

/* The card: submit 700, label, send, place in view 1, receive, safe, confirm,
 * deliver, deliver, in a hall of one recorder. */
static void listing_card(void)
{
    const uint32_t entry[] = {HALL_CASE_ENTRY, 1, 1, 1, 1, 700};
    const uint32_t from[] = {HALL_CASE_FROM, 1, 700};
    const uint32_t opened[] = {1, 1, HALL_PHASE_NORMAL, 2, 1, 0, 0, 1, 1};
    const uint32_t labelled[] = {1, 1, HALL_PHASE_NORMAL, 2, 1, 0, 1, 1, 1};
    const uint32_t last[] = {1, 1, HALL_PHASE_NORMAL, 2, 1, 1, 0, 2, 2, 1, 1, 1, 700};
    uint8_t *hall = filled(HALL_LENGTH, 0x5a);

    CHECK(hall_open_built_in(hall, HALL_LENGTH, 1, 1) == 0);
    CHECK(page_gives(hall, 1, 0, opened, 9));
    CHECK(step_is_done(hall, HALL_SUBMIT, 1, 700));
    CHECK(page_gives(hall, 1, 0, opened, 9));
    CHECK(step_is_done(hall, HALL_LABEL, 1, 0));
    CHECK(page_gives(hall, 1, 0, labelled, 9));
    CHECK(step_is_done(hall, HALL_SEND_ENTRY, 1, 0));
    CHECK(step_is_done(hall, HALL_PLACE, 1, 1));
    CHECK(step_gives(hall, HALL_RECEIVE, 1, 0, entry, 6));
    CHECK(step_gives(hall, HALL_SAFE, 1, 0, entry, 6));
    CHECK(step_is_done(hall, HALL_CONFIRM, 1, 0));
    CHECK(step_gives(hall, HALL_DELIVER, 1, 0, from, 3));
    CHECK(step_refused(hall, HALL_DELIVER, 1, 0, 0, HALL_REFUSED_NOTHING));
    CHECK(page_gives(hall, 1, 0, last, 9));
    CHECK(page_gives(hall, 1, 1, last, 13));
    CHECK(page_refused(hall, HALL_LENGTH, 1, 2, HALL_ANSWER_LENGTH, HALL_REFUSED_NOTHING));
    free(hall);
}

/* A second view, whose exchange gives summaries. */
static void second_view(void)
{
    const uint32_t summary[] = {HALL_CASE_SUMMARY, 2, 0, 0, 1, 1};
    const uint32_t outside[] = {0, 0, HALL_PHASE_NORMAL, (uint32_t)-4, 0, 0, 0, 1, 1};
    const uint32_t sending[] = {2, 2, HALL_PHASE_SEND, (uint32_t)-2, 1, 0, 0, 1, 1};
    const uint32_t complete[] = {2, 2, HALL_PHASE_NORMAL, (uint32_t)-2, 1, 0, 0, 1, 1};
    uint8_t *hall = filled(HALL_LENGTH, 0);

    CHECK(hall_open_built_in(hall, HALL_LENGTH, 3, 3) == 0);
    CHECK(page_gives(hall, 3, 0, outside, 9));
    CHECK(view_is_formed(hall, 2, 2));
    CHECK(step_refused(hall, HALL_FORM, 0, 2, 2, HALL_REFUSED_NOT_RISING));
    CHECK(step_refused(hall, HALL_ENTER, 1, 2, 0, HALL_REFUSED_NO_MEMBER));
    CHECK(step_is_done(hall, HALL_ENTER, 2, 2));
    CHECK(page_gives(hall, 2, 0, sending, 9));
    CHECK(step_is_done(hall, HALL_SUBMIT, 2, 5));
    CHECK(step_refused(hall, HALL_LABEL, 2, 0, 0, HALL_REFUSED_PHASE));
    CHECK(step_is_done(hall, HALL_SEND_SUMMARY, 2, 0));
    CHECK(step_is_done(hall, HALL_PLACE, 2, 2));
    CHECK(step_refused(hall, HALL_SAFE, 2, 0, 0, HALL_REFUSED_NOT_YET));
    CHECK(step_gives(hall, HALL_RECEIVE, 2, 0, summary, 6));
    CHECK(page_gives(hall, 2, 0, complete, 9));
    CHECK(step_gives(hall, HALL_SAFE, 2, 0, summary, 6));
    CHECK(step_is_done(hall, HALL_LABEL, 2, 0));
    free(hall);
}

/* Views 255, 256 and the last one: each is formed once and entered. In the last
 * one summaries are exchanged, and an entry is labelled and received. */
static void view_numbers(void)
{
    const uint32_t last = HALL_MAX_VIEW_NUMBER;
    const uint32_t numbers[] = {255, 256, last};
    const uint32_t summary[] = {HALL_CASE_SUMMARY, 1, 0, 0, 1, 1};
    const uint32_t entry[] = {HALL_CASE_ENTRY, 1, last, 1, 1, 5};
    const uint32_t received[] = {last, 1, HALL_PHASE_NORMAL, 2, last, 1, 0, 1, 1, last, 1, 1, 5};
    uint8_t *hall = filled(HALL_LENGTH, 0);

    CHECK(hall_open_built_in(hall, HALL_LENGTH, 1, 1) == 0);
    for (size_t i = 0; i < 3; i++) {
        const uint32_t entered[] = {numbers[i], 1, HALL_PHASE_SEND, 2, 1, 0, 0, 1, 1};
        CHECK(step_refused(hall, HALL_ENTER, 1, numbers[i], 0, HALL_REFUSED_NOT_FORMED));
        CHECK(view_is_formed(hall, numbers[i], 1));
        CHECK(step_refused(hall, HALL_FORM, 0, numbers[i], 1, HALL_REFUSED_NOT_RISING));
        CHECK(step_is_done(hall, HALL_ENTER, 1, numbers[i]));
        CHECK(step_refused(hall, HALL_ENTER, 1, numbers[i], 0, HALL_REFUSED_NOT_ABOVE));
        CHECK(page_gives(hall, 1, 0, entered, 9));
    }
    CHECK(step_is_done(hall, HALL_SEND_SUMMARY, 1, 0));
    CHECK(step_is_done(hall, HALL_PLACE, 1, last));
    CHECK(step_gives(hall, HALL_RECEIVE, 1, 0, summary, 6));
    CHECK(step_is_done(hall, HALL_SUBMIT, 1, 5));
    CHECK(step_is_done(hall, HALL_LABEL, 1, 0));
    CHECK(step_is_done(hall, HALL_SEND_ENTRY, 1, 0));
    CHECK(step_is_done(hall, HALL_PLACE, 1, last));
    CHECK(step_gives(hall, HALL_RECEIVE, 1, 0, entry, 6));
    CHECK(page_gives(hall, 1, 1, received, 13));
    free(hall);
}

/* An entry of view 1 reached 2 alone. When 2 and 3, of the same highest primary,
 * exchange their summaries in view 2, both have 2's order, the longer one. */
static void longest_order(void)
{
    const uint32_t entry[] = {HALL_CASE_ENTRY, 2, 1, 1, 2, 700};
    const uint32_t longer[] = {HALL_CASE_SUMMARY, 2, 1, 1, 1, 1};
    const uint32_t shorter[] = {HALL_CASE_SUMMARY, 3, 0, 0, 1, 1};
    const uint32_t collecting[] = {2, 6, HALL_PHASE_COLLECT, 0, 1, 0, 0, 1, 1};
    const uint32_t healed[] = {2, 6, HALL_PHASE_NORMAL, 0, 1, 1, 0, 1, 1, 1, 1, 2, 700};
    uint8_t *hall = filled(HALL_LENGTH, 0);

    CHECK(hall_open_built_in(hall, HALL_LENGTH, 3, 7) == 0);
    CHECK(step_is_done(hall, HALL_SUBMIT, 2, 700));
    CHECK(step_is_done(hall, HALL_LABEL, 2, 0));
    CHECK(step_is_done(hall, HALL_SEND_ENTRY, 2, 0));
    CHECK(step_is_done(hall, HALL_PLACE, 2, 1));
    CHECK(step_gives(hall, HALL_RECEIVE, 2, 0, entry, 6));
    CHECK(view_is_formed(hall, 2, 6));
    for (uint32_t r = 2; r <= 3; r++) {
        CHECK(step_is_done(hall, HALL_ENTER, r, 2));
        CHECK(step_is_done(hall, HALL_SEND_SUMMARY, r, 0));
        CHECK(step_is_done(hall, HALL_PLACE, r, 2));
    }
    CHECK(page_gives(hall, 3, 0, collecting, 9));
    for (uint32_t r = 2; r <= 3; r++) {
        CHECK(step_gives(hall, HALL_RECEIVE, r, 0, longer, 6));
        CHECK(step_gives(hall, HALL_RECEIVE, r, 0, shorter, 6));
        CHECK(page_gives(hall, r, 1, healed, 13));
    }
    free(hall);
}

/* Whether recorder r of a hall just opened has this margin. */
static int margin_is(uint32_t n, uint32_t founders, uint32_t r, int32_t wanted)
{
    uint8_t *hall = filled(HALL_LENGTH, 0);
    uint8_t *page = filled(HALL_ANSWER_LENGTH, 0xa5);
    int ok = hall_open_built_in(hall, HALL_LENGTH, n, founders) == 0 &&
             hall_page(hall, HALL_LENGTH, r, 0, page, HALL_ANSWER_LENGTH) == 0 &&
             hall_signed(page, HALL_PAGE_MARGIN) == wanted;
    free(page);
    free(hall);
    return ok;
}

/* Of three recorders {2, 3}, {1, 2} and one without a view; of four {2, 3, 4}
 * and {3, 4}. */
static void margins(void)
{
    CHECK(margin_is(3, 6, 2, 0));
    CHECK(margin_is(3, 3, 1, 2));
    CHECK(margin_is(3, 3, 3, -4));
    CHECK(margin_is(4, 14, 2, 1));
    CHECK(margin_is(4, 12, 3, -1));
}

/* Votes for the control room and the yard. */
static const uint32_t site[HALL_RECORDERS] = {5, 3, 3};

/* Whether recorder r of a hall of three just opened with these votes has this
 * margin. */
static int site_margin_is(uint32_t founders, uint32_t r, int32_t wanted)
{
    uint8_t *hall = filled(HALL_LENGTH, 0);
    uint8_t *page = filled(HALL_ANSWER_LENGTH, 0xa5);
    int ok = hall_open_row(hall, HALL_LENGTH, 3, founders, site) == 0 &&
             hall_page(hall, HALL_LENGTH, r, 0, page, HALL_ANSWER_LENGTH) == 0 &&
             hall_signed(page, HALL_PAGE_MARGIN) == wanted;
    free(page);
    free(hall);
    return ok;
}

static void margins_of_votes(void)
{
    CHECK(site_margin_is(6, 2, 1));
    CHECK(site_margin_is(3, 1, 5));
    CHECK(site_margin_is(1, 1, -1));
    CHECK(site_margin_is(1, 2, -11));
    CHECK(site_margin_is(7, 3, 11));
}

/* The yard without the control room: {2, 3} is primary, so that an entry goes
 * all the way there. */
static void primary_by_votes(void)
{
    const uint32_t entry[] = {HALL_CASE_ENTRY, 2, 1, 1, 2, 700};
    const uint32_t from[] = {HALL_CASE_FROM, 2, 700};
    const uint32_t received[] = {1, 6, HALL_PHASE_NORMAL, 1, 1, 1, 0, 1, 1, 1, 1, 2, 700};
    uint8_t *hall = filled(HALL_LENGTH, 0);

    CHECK(hall_open(hall, HALL_LENGTH, 3, 6, 5, 3, 3, 0, 0, 0, 0, 0) == 0);
    CHECK(step_is_done(hall, HALL_SUBMIT, 2, 700));
    CHECK(step_is_done(hall, HALL_LABEL, 2, 0));
    CHECK(step_is_done(hall, HALL_SEND_ENTRY, 2, 0));
    CHECK(step_is_done(hall, HALL_PLACE, 2, 1));
    CHECK(step_gives(hall, HALL_RECEIVE, 2, 0, entry, 6));
    CHECK(page_gives(hall, 2, 1, received, 13));
    CHECK(step_gives(hall, HALL_RECEIVE, 3, 0, entry, 6));
    CHECK(step_gives(hall, HALL_SAFE, 2, 0, entry, 6));
    CHECK(step_is_done(hall, HALL_CONFIRM, 2, 0));
    CHECK(step_gives(hall, HALL_DELIVER, 2, 0, from, 3));
    free(hall);
}

/* The three ways to open a hall with the built-in row give the same bytes. */
static void built_in_votes(void)
{
    static const uint32_t row[HALL_RECORDERS] = {2, 1, 1, 1, 1, 1, 1, 1};
    uint8_t *one = filled(HALL_LENGTH, 0x5a);
    uint8_t *other = filled(HALL_LENGTH, 0xa5);
    for (uint32_t n = 1; n <= HALL_RECORDERS; n++) {
        uint32_t votes[HALL_RECORDERS] = {0};
        memcpy(votes, row, n * sizeof *row);
        uint32_t all = (1u << n) - 1;
        CHECK(hall_open_built_in(one, HALL_LENGTH, n, all) == 0);
        CHECK(hall_open_row(other, HALL_LENGTH, n, all, votes) == 0);
        CHECK(memcmp(one, other, HALL_LENGTH) == 0);
        CHECK(hall_open(other, HALL_LENGTH, n, all, votes[0], votes[1], votes[2], votes[3], votes[4], votes[5],
                        votes[6], votes[7]) == 0);
        CHECK(memcmp(one, other, HALL_LENGTH) == 0);
    }
    free(other);
    free(one);
}

/* Founders 0 open the same hall as founders 1: recorder 1 alone, with any votes. */
static void founders_zero(void)
{
    uint8_t *zero = filled(HALL_LENGTH, 0x5a);
    uint8_t *one = filled(HALL_LENGTH, 0xa5);
    for (uint32_t n = 1; n <= HALL_RECORDERS; n++) {
        CHECK(hall_open_built_in(zero, HALL_LENGTH, n, 0) == 0);
        CHECK(hall_open_built_in(one, HALL_LENGTH, n, 1) == 0);
        CHECK(memcmp(zero, one, HALL_LENGTH) == 0);
    }
    CHECK(hall_open(zero, HALL_LENGTH, 3, 0, 0, 0, 1, 0, 0, 0, 0, 0) == 0);
    CHECK(hall_open(one, HALL_LENGTH, 3, 1, 0, 0, 1, 0, 0, 0, 0, 0) == 0);
    CHECK(memcmp(zero, one, HALL_LENGTH) == 0);
    free(one);
    free(zero);
}

/* Whether an opening with one vote changed gives a number, and leaves a slice
 * that it refuses. */
static int opening_gives(uint32_t n, uint32_t founders, size_t place, uint32_t vote, size_t length,
                         uint32_t wanted)
{
    uint32_t votes[HALL_RECORDERS] = {0};
    uint8_t *hall = filled(length, 0x5a);
    votes[0] = 1;
    votes[place] = vote;
    uint32_t number = hall_open_row(hall, length, n, founders, votes);
    int ok = number == wanted && (number == 0 || holds_only(hall, 0, length, 0x5a));
    free(hall);
    return ok;
}

/* 41 in all its cases: a vote above 1,000, one above N, all votes 0. It stands
 * between 16 and 18. */
static void refused_votes(void)
{
    const uint32_t most = HALL_MAX_VOTE;
    for (uint32_t n = 1; n <= HALL_RECORDERS; n++) {
        CHECK(opening_gives(n, 0, 0, 0, HALL_LENGTH, HALL_REFUSED_VOTES));
        CHECK(opening_gives(n, 0, n - 1, most, HALL_LENGTH, HALL_OK));
        CHECK(opening_gives(n, 0, n - 1, most + 1, HALL_LENGTH, HALL_REFUSED_VOTES));
        CHECK(opening_gives(n, 0, n - 1, UINT32_MAX, HALL_LENGTH, HALL_REFUSED_VOTES));
        if (n < HALL_RECORDERS) {
            CHECK(opening_gives(n, 0, n, 0, HALL_LENGTH, HALL_OK));
            CHECK(opening_gives(n, 0, n, 1, HALL_LENGTH, HALL_REFUSED_VOTES));
            CHECK(opening_gives(n, 0, HALL_RECORDERS - 1, 1, HALL_LENGTH, HALL_REFUSED_VOTES));
        }
        CHECK(opening_gives(n, 1u << n, 0, 0, HALL_LENGTH, HALL_REFUSED_OPENING));
        CHECK(opening_gives(n, 0, 0, 0, HALL_LENGTH - 1, HALL_REFUSED_VOTES));
        CHECK(opening_gives(n, 0, 0, 1, HALL_LENGTH - 1, HALL_REFUSED_SHORT));
    }
    CHECK(opening_gives(0, 0, 0, 0, HALL_LENGTH, HALL_REFUSED_OPENING));
    CHECK(opening_gives(9, 0, 0, most + 1, HALL_LENGTH, HALL_REFUSED_OPENING));
}

/* Votes in a stored hall, which stand at its end: what 41 would refuse is 31. */
static void stored_votes(void)
{
    const size_t votes = HALL_LENGTH - 4 * HALL_RECORDERS;
    uint8_t *hall = filled(HALL_LENGTH, 0);

    CHECK(hall_open_row(hall, HALL_LENGTH, 3, 7, site) == 0);
    for (size_t i = 0; i < HALL_RECORDERS; i++) {
        CHECK(hall_word(hall + votes, i) == site[i]);
    }
    hall[votes] = 0xe8;
    hall[votes + 1] = 3;
    CHECK(step_is_done(hall, HALL_SUBMIT, 1, 5));
    hall[votes] = 0xe9;
    CHECK(step_refused(hall, HALL_SUBMIT, 1, 5, 0, HALL_REFUSED_BYTES));
    CHECK(page_refused(hall, HALL_LENGTH, 1, 0, HALL_ANSWER_LENGTH, HALL_REFUSED_BYTES));
    hall[votes + 1] = 0;
    hall[votes + 4 * 3] = 1;
    CHECK(step_refused(hall, HALL_SUBMIT, 1, 5, 0, HALL_REFUSED_BYTES));
    memset(hall + votes, 0, 4 * HALL_RECORDERS);
    CHECK(step_refused(hall, HALL_SUBMIT, 1, 5, 0, HALL_REFUSED_BYTES));
    hall[votes + 4 * 2] = 1;
    CHECK(step_is_done(hall, HALL_SUBMIT, 1, 5));
    free(hall);
}

/* Whether a settle takes so many steps. */
static int settle_gives(uint8_t *hall, uint32_t steps)
{
    const uint32_t words[] = {steps};
    uint8_t *answer = filled(HALL_ANSWER_LENGTH, 0xa5);
    uint32_t number = hall_settle(hall, HALL_LENGTH, answer, HALL_ANSWER_LENGTH);
    int ok = number == 0 && words_are(answer, 0, words, 1);
    free(answer);
    return ok;
}

/* Whether a settle is refused with a number and leaves hall and answer. */
static int settle_refused(uint8_t *hall, size_t hall_len, size_t answer_len, uint32_t wanted)
{
    uint8_t *before = filled(hall_len, 0);
    uint8_t *answer = filled(answer_len, 0xa5);
    memcpy(before, hall, hall_len);
    uint32_t number = hall_settle(hall, hall_len, answer, answer_len);
    int ok = number == wanted && memcmp(before, hall, hall_len) == 0 && holds_only(answer, 0, answer_len, 0xa5);
    free(answer);
    free(before);
    return ok;
}

/* A hall just opened for n founders, with so many entries at the recorders in
 * turn. */
static uint8_t *hall_with(uint32_t n, uint32_t entries)
{
    uint8_t *hall = filled(HALL_LENGTH, 0x5a);
    CHECK(hall_open_built_in(hall, HALL_LENGTH, n, (1u << n) - 1) == 0);
    for (uint32_t i = 0; i < entries; i++) {
        CHECK(step_is_done(hall, HALL_SUBMIT, i % n + 1, 700 + i));
    }
    return hall;
}

/* Whether so many entries are delivered at recorder r. */
static int delivered_are(const uint8_t *hall, uint32_t r, uint32_t wanted)
{
    uint8_t *page = filled(HALL_ANSWER_LENGTH, 0xa5);
    int ok = hall_page(hall, HALL_LENGTH, r, 0, page, HALL_ANSWER_LENGTH) == 0 &&
             hall_word(page, HALL_PAGE_REPORT) == wanted + 1;
    free(page);
    return ok;
}

/* Whether such a hall is settled in so many steps, and a second time in none, if
 * view 2 is formed with a set before, 0 for no view 2. So many entries are then
 * delivered at each member, and none elsewhere. */
static int settles(uint32_t n, uint32_t entries, uint32_t set, uint32_t steps, uint32_t delivered)
{
    uint8_t *hall = hall_with(n, entries);
    int ok = (set == 0 || view_is_formed(hall, 2, set)) && settle_gives(hall, steps) && settle_gives(hall, 0);
    for (uint32_t r = 1; r <= n; r++) {
        int is_member = set == 0 || (set >> (r - 1) & 1) != 0;
        ok = ok && delivered_are(hall, r, is_member ? delivered : 0);
    }
    free(hall);
    return ok;
}

/* A view 2 here is entered by nobody before. */
static void settled_halls(void)
{
    CHECK(settles(1, 1, 0, 7, 1));
    CHECK(settles(3, 3, 0, 45, 3));
    CHECK(settles(3, 3, 3, 36, 2));
    CHECK(settles(3, 0, 7, 27, 0));
    CHECK(settles(3, 0, 0, 0, 0));
    CHECK(settles(8, 64, 255, HALL_MAX_SETTLE_STEPS, 64));
    CHECK(settles(8, 64, 0, 2240, 64));
}

/* A settle leaves the bytes that its steps leave one by one. */
static void steps_of_a_settle(void)
{
    const uint32_t entry[] = {HALL_CASE_ENTRY, 1, 1, 1, 1, 700};
    const uint32_t from[] = {HALL_CASE_FROM, 1, 700};
    uint8_t *settled = hall_with(1, 1);
    uint8_t *stepped = hall_with(1, 1);

    CHECK(settle_gives(settled, 7));
    CHECK(step_is_done(stepped, HALL_LABEL, 1, 0));
    CHECK(step_is_done(stepped, HALL_SEND_ENTRY, 1, 0));
    CHECK(step_is_done(stepped, HALL_PLACE, 1, 1));
    CHECK(step_gives(stepped, HALL_RECEIVE, 1, 0, entry, 6));
    CHECK(step_gives(stepped, HALL_SAFE, 1, 0, entry, 6));
    CHECK(step_is_done(stepped, HALL_CONFIRM, 1, 0));
    CHECK(step_gives(stepped, HALL_DELIVER, 1, 0, from, 3));
    CHECK(memcmp(settled, stepped, HALL_LENGTH) == 0);
    free(stepped);
    free(settled);
}

/* Where fields of a stored hall begin (docs/stored-form.md). */
enum {
    STORED_VIEW_COUNT = 1,
    STORED_VIEWS = 2,
    STORED_CURRENT = 803, /* of recorder 1, as the next */
    STORED_NEXT_SEQ = 803 + 5
};

/* 42: {2, 3} is not primary, as the founders or as the view with the greatest
 * number, whatever the views before it are; and a hall without a view. */
static void settles_not_primary(void)
{
    uint8_t *hall = hall_with(3, 3);

    CHECK(view_is_formed(hall, 2, 3));
    CHECK(view_is_formed(hall, 3, 6));
    CHECK(settle_refused(hall, HALL_LENGTH, HALL_ANSWER_LENGTH, HALL_REFUSED_NOT_PRIMARY));
    CHECK(settle_refused(hall, HALL_LENGTH, 0, HALL_REFUSED_NOT_PRIMARY));
    CHECK(view_is_formed(hall, 4, 5));
    CHECK(settle_gives(hall, 36));
    CHECK(hall_open_built_in(hall, HALL_LENGTH, 3, 6) == 0);
    CHECK(settle_refused(hall, HALL_LENGTH, HALL_ANSWER_LENGTH, HALL_REFUSED_NOT_PRIMARY));
    CHECK(hall_open_row(hall, HALL_LENGTH, 3, 6, site) == 0);
    CHECK(settle_gives(hall, 0));
    CHECK(hall_open_built_in(hall, HALL_LENGTH, 1, 1) == 0);
    memset(hall + STORED_VIEWS, 0, 5);
    memset(hall + STORED_CURRENT, 0, 4);
    hall[STORED_VIEW_COUNT] = 0;
    CHECK(settle_refused(hall, HALL_LENGTH, HALL_ANSWER_LENGTH, HALL_REFUSED_NOT_PRIMARY));
    free(hall);
}

/* 40, in halls that no run reaches: recorder 1 has no further label. It comes
 * where no action is allowed; and after steps, which are not kept, before an
 * action that is allowed at recorder 2. 42 comes before it: of three recorders
 * {1} is not primary. */
static void settles_full(void)
{
    uint8_t *alone = hall_with(1, 1);
    uint8_t *hall = hall_with(2, 3);

    alone[STORED_NEXT_SEQ] = HALL_MAX_SEQ;
    CHECK(settle_refused(alone, HALL_LENGTH, HALL_ANSWER_LENGTH, HALL_REFUSED_FULL));

    CHECK(step_is_done(hall, HALL_LABEL, 1, 0));
    hall[STORED_NEXT_SEQ] = HALL_MAX_SEQ;
    CHECK(step_refused(hall, HALL_LABEL, 1, 0, 0, HALL_REFUSED_FULL));
    CHECK(settle_refused(hall, HALL_LENGTH, HALL_ANSWER_LENGTH, HALL_REFUSED_FULL));
    CHECK(settle_refused(hall, HALL_LENGTH, HALL_ANSWER_LENGTH - 1, HALL_REFUSED_FULL));

    CHECK(hall_open_built_in(alone, HALL_LENGTH, 3, 1) == 0);
    CHECK(step_is_done(alone, HALL_SUBMIT, 1, 700));
    alone[STORED_NEXT_SEQ] = HALL_MAX_SEQ;
    CHECK(settle_refused(alone, HALL_LENGTH, HALL_ANSWER_LENGTH, HALL_REFUSED_NOT_PRIMARY));
    free(hall);
    free(alone);
}

/* 31 first and 18 last. */
static void refused_settles(void)
{
    uint8_t *hall = filled(HALL_LENGTH, 0x5a);
    uint8_t *shorter = filled(HALL_LENGTH - 1, 0);
    uint8_t *none = filled(0, 0);

    CHECK(settle_refused(hall, HALL_LENGTH, 0, HALL_REFUSED_BYTES));
    CHECK(settle_refused(none, 0, HALL_ANSWER_LENGTH, HALL_REFUSED_BYTES));
    CHECK(hall_open_built_in(hall, HALL_LENGTH, 3, 7) == 0);
    memcpy(shorter, hall, HALL_LENGTH - 1);
    CHECK(settle_refused(shorter, HALL_LENGTH - 1, HALL_ANSWER_LENGTH, HALL_REFUSED_BYTES));
    CHECK(step_is_done(hall, HALL_SUBMIT, 1, 5));
    CHECK(settle_refused(hall, HALL_LENGTH, HALL_ANSWER_LENGTH - 1, HALL_REFUSED_SHORT));
    CHECK(settle_refused(hall, HALL_LENGTH, 0, HALL_REFUSED_SHORT));
    CHECK(settle_gives(hall, 15));
    CHECK(hall_open_built_in(hall, HALL_LENGTH, 3, 6) == 0);
    hall[HALL_LENGTH - 1] = 1;
    CHECK(settle_refused(hall, HALL_LENGTH, HALL_ANSWER_LENGTH, HALL_REFUSED_BYTES));
    free(none);
    free(shorter);
    free(hall);
}

/* Words of either sign, at both ends of their range. */
static void signed_words(void)
{
    static const uint8_t words[] = {
        0,    0,    0,    0,
        1,    0,    0,    0,
        0xff, 0xff, 0xff, 0x7f,
        0,    0,    0,    0x80,
        0xff, 0xff, 0xff, 0xff};

    CHECK(hall_signed(words, 0) == 0);
    CHECK(hall_signed(words, 1) == 1);
    CHECK(hall_signed(words, 2) == INT32_MAX);
    CHECK(hall_signed(words, 3) == INT32_MIN);
    CHECK(hall_signed(words, 4) == -1);
}

/* Lengths, broken bytes and the order of refusals. */
static void refused_calls(void)
{
    uint8_t *hall = filled(HALL_LENGTH, 0x5a);
    uint8_t *shorter = filled(HALL_LENGTH - 1, 0);
    uint8_t *none = filled(0, 0);

    CHECK(hall_open_built_in(hall, HALL_LENGTH, 0, 0) == HALL_REFUSED_OPENING);
    CHECK(hall_open_built_in(hall, HALL_LENGTH, 9, 0) == HALL_REFUSED_OPENING);
    CHECK(hall_open_built_in(hall, HALL_LENGTH, 3, 8) == HALL_REFUSED_OPENING);
    CHECK(hall_open_built_in(hall, HALL_LENGTH - 1, 3, 8) == HALL_REFUSED_OPENING);
    CHECK(hall_open_built_in(hall, HALL_LENGTH - 1, 3, 0) == HALL_REFUSED_SHORT);
    CHECK(hall_open_built_in(none, 0, 3, 0) == HALL_REFUSED_SHORT);
    CHECK(holds_only(hall, 0, HALL_LENGTH, 0x5a));

    CHECK(step_refused(hall, 12, 0, 0, 0, HALL_REFUSED_KIND));
    CHECK(step_refused(hall, HALL_ENTER, 9, 0, 0, HALL_REFUSED_BYTES));
    CHECK(page_refused(hall, HALL_LENGTH, 9, 0, 0, HALL_REFUSED_BYTES));

    CHECK(hall_open_built_in(hall, HALL_LENGTH, 8, 255) == 0);
    CHECK(step_refused(hall, 0, 1, 0, 0, HALL_REFUSED_KIND));
    CHECK(step_refused(hall, HALL_ENTER, 9, 0, 0, HALL_REFUSED_RECORDER));
    CHECK(step_refused(hall, HALL_LABEL, 1, 0, 1, HALL_REFUSED_UNUSED));
    CHECK(step_refused(hall, HALL_ENTER, 1, 0, 0, HALL_REFUSED_VIEW_NUMBER));
    CHECK(step_refused(hall, HALL_FORM, 0, 0, 256, HALL_REFUSED_VIEW_NUMBER));
    CHECK(step_refused(hall, HALL_FORM, 0, 2, 256, HALL_REFUSED_SET));
    CHECK(step_refused(hall, HALL_ENTER, 1, 2, 0, HALL_REFUSED_NOT_FORMED));
    CHECK(step_refused(hall, HALL_ENTER, 1, 1, 0, HALL_REFUSED_NOT_ABOVE));
    CHECK(page_refused(hall, HALL_LENGTH, 9, 1, 0, HALL_REFUSED_RECORDER));
    CHECK(page_refused(hall, HALL_LENGTH, 8, 1, 0, HALL_REFUSED_NOTHING));
    CHECK(page_refused(hall, HALL_LENGTH, 8, 0, HALL_ANSWER_LENGTH - 1, HALL_REFUSED_SHORT));

    memcpy(shorter, hall, HALL_LENGTH - 1);
    CHECK(hall_step(shorter, HALL_LENGTH - 1, HALL_SUBMIT, 1, 5, 0, none, 0) == HALL_REFUSED_BYTES);
    CHECK(hall_step(none, 0, HALL_SUBMIT, 1, 5, 0, shorter, HALL_LENGTH - 1) == HALL_REFUSED_BYTES);
    CHECK(page_refused(shorter, HALL_LENGTH - 1, 1, 0, HALL_ANSWER_LENGTH, HALL_REFUSED_BYTES));
    CHECK(hall_step(hall, HALL_LENGTH, HALL_SUBMIT, 9, 5, 0, none, 0) == HALL_REFUSED_RECORDER);
    CHECK(hall_step(hall, HALL_LENGTH, HALL_SUBMIT, 1, 5, 0, none, 0) == HALL_REFUSED_SHORT);
    CHECK(memcmp(shorter, hall, HALL_LENGTH - 1) == 0);
    free(none);
    free(shorter);
    free(hall);
}

/* Bytes past the end of a longer slice stay. */
static void longer_slices(void)
{
    const size_t rest = 1000;
    const uint32_t done[] = {HALL_CASE_DONE};
    const uint32_t steps[] = {11};
    uint8_t *hall = filled(HALL_LENGTH + rest, 0xa5);
    uint8_t *answer = filled(HALL_ANSWER_LENGTH + rest, 0xa5);

    CHECK(hall_open_built_in(hall, HALL_LENGTH + rest, 2, 3) == 0);
    CHECK(hall_step(hall, HALL_LENGTH + rest, HALL_SUBMIT, 2, 5, 0, answer, HALL_ANSWER_LENGTH + rest) == 0);
    CHECK(words_are(answer, rest, done, 1));
    CHECK(hall_settle(hall, HALL_LENGTH + rest, answer, HALL_ANSWER_LENGTH + rest) == 0);
    CHECK(words_are(answer, rest, steps, 1));
    CHECK(holds_only(hall, HALL_LENGTH, HALL_LENGTH + rest, 0xa5));
    free(answer);
    free(hall);
}

/* The run of docs/run-files.md: submit 700 and label, in a hall of one
 * recorder. */
static const uint32_t run_actions[] = {HALL_SUBMIT, 1, 700, 0, HALL_LABEL, 1, 0, 0};

enum { RUN_LENGTH = 4 * HALL_RUN_BLOCK };

/* Its bytes, in a slice of just their length. */
static uint8_t *run_file(void)
{
    uint8_t *file = filled(RUN_LENGTH, 0xa5);
    uint8_t *words = filled(HALL_ANSWER_LENGTH, 0xa5);
    const uint32_t length[] = {RUN_LENGTH};

    CHECK(hall_run_write_built_in(file, RUN_LENGTH, 1, 1, run_actions, 8, words, HALL_ANSWER_LENGTH) == 0);
    CHECK(words_are(words, 0, length, 1));
    free(words);
    return file;
}

/* Whether the action at an offset has these words. */
static int action_gives(const uint8_t *file, size_t at, const uint32_t *wanted, size_t count)
{
    uint8_t *words = filled(HALL_ANSWER_LENGTH + 3, 0xa5);
    uint32_t number = hall_run_action(file, RUN_LENGTH, at, words, HALL_ANSWER_LENGTH + 3);
    int ok = number == 0 && words_are(words, 3, wanted, count);
    free(words);
    return ok;
}

static void run_files(void)
{
    static const uint8_t bytes[RUN_LENGTH] = {
        1,    0, 0, 0, 1, 0, 0, 0, 0,    0, 0, 0, 0, 0, 0, 0,
        1,    0, 0, 0, 1, 0, 0, 0, 0xbc, 2, 0, 0, 0, 0, 0, 0,
        2,    0, 0, 0, 1, 0, 0, 0, 0,    0, 0, 0, 0, 0, 0, 0,
        0x40, 0, 0, 0, 2, 0, 0, 0, 0,    0, 0, 0, 0, 0, 0, 0};
    const uint32_t opening[] = {1, 1, 16, 0, 2};
    const uint32_t first[] = {0, HALL_SUBMIT, 1, 700, 0, 32, 0};
    const uint32_t second[] = {0, HALL_LABEL, 1, 0, 0, 48, 0};
    const uint32_t end[] = {1};
    uint8_t *file = run_file();
    uint8_t *hall = filled(HALL_LENGTH, 0);
    uint8_t *words = filled(HALL_ANSWER_LENGTH, 0xa5);

    CHECK(memcmp(file, bytes, RUN_LENGTH) == 0);
    CHECK(hall_run_read(file, RUN_LENGTH, words, HALL_ANSWER_LENGTH) == 0);
    CHECK(words_are(words, 0, opening, 5));
    CHECK(action_gives(file, 16, first, 7));
    CHECK(action_gives(file, 32, second, 7));
    CHECK(action_gives(file, 48, end, 1));
    CHECK(action_gives(file, RUN_LENGTH, end, 1));
    CHECK(action_gives(file, SIZE_MAX, end, 1));

    /* The run, taken action by action. */
    CHECK(hall_word(words, HALL_RUN_THIRD) == 0);
    CHECK(hall_open_built_in(hall, HALL_LENGTH, hall_word(words, HALL_RUN_SIZE),
                             hall_word(words, HALL_RUN_FOUNDERS)) == 0);
    size_t at = hall_offset(words, HALL_RUN_START);
    uint32_t count = hall_word(words, HALL_RUN_COUNT);
    uint32_t taken = 0;
    while (hall_run_action(file, RUN_LENGTH, at, words, HALL_ANSWER_LENGTH) == 0 &&
           hall_word(words, HALL_ACTION_END) == 0) {
        if (step_is_done(hall, hall_word(words, HALL_ACTION_K), hall_word(words, HALL_ACTION_R),
                         hall_word(words, HALL_ACTION_A))) {
            taken++;
        }
        at = hall_offset(words, HALL_ACTION_NEXT);
    }
    CHECK(taken == count);
    free(words);
    free(hall);
    free(file);
}

/* Refused run files: the order of refusals, and all bytes stay. */
static void refused_run_files(void)
{
    const size_t many = 4 * (HALL_MAX_ACTIONS + 1);
    const size_t most = HALL_ANSWER_LENGTH;
    uint8_t *file = run_file();
    uint8_t *before = run_file();
    uint8_t *words = filled(most, 0xa5);
    uint8_t *none = filled(0, 0);
    uint32_t *actions = calloc(many, sizeof *actions);
    if (!actions) {
        puts("no memory");
        exit(2);
    }

    CHECK(hall_run_read(none, 0, words, most) == HALL_REFUSED_FILE);
    CHECK(hall_run_read(file, RUN_LENGTH - 1, none, 0) == HALL_REFUSED_FILE);
    CHECK(hall_run_read(file, RUN_LENGTH, words, most - 1) == HALL_REFUSED_SHORT);
    file[0] = before[0] = 9;
    CHECK(hall_run_read(file, RUN_LENGTH, none, 0) == HALL_REFUSED_OPENING);
    file[8] = before[8] = 1;
    CHECK(hall_run_read(file, RUN_LENGTH, words, most) == HALL_REFUSED_FILE);
    file[8] = before[8] = 2;
    CHECK(hall_run_read(file, RUN_LENGTH, words, most) == HALL_REFUSED_FILE);
    CHECK(hall_run_action(file, RUN_LENGTH, 16, words, most - 1) == HALL_REFUSED_SHORT);
    CHECK(hall_run_action(none, 0, 0, none, 0) == HALL_REFUSED_SHORT);

    CHECK(hall_run_write_built_in(file, RUN_LENGTH, 9, 0, actions, many, none, 0) == HALL_REFUSED_OPENING);
    CHECK(hall_run_write_built_in(file, RUN_LENGTH, 8, 0, actions, many, none, 0) == HALL_REFUSED_FILE);
    CHECK(hall_run_write_built_in(file, RUN_LENGTH, 8, 0, actions, 8, words, most - 1) == HALL_REFUSED_SHORT);
    CHECK(hall_run_write_built_in(file, RUN_LENGTH - 1, 8, 0, actions, 8, words, most) == HALL_REFUSED_SHORT);
    CHECK(hall_run_write_built_in(none, 0, 8, 0, actions, 0, words, most) == HALL_REFUSED_SHORT);
    CHECK(holds_only(words, 0, most, 0xa5));
    CHECK(memcmp(file, before, RUN_LENGTH) == 0);
    free(actions);
    free(none);
    free(words);
    free(before);
    free(file);
}

/* The same run with votes. */
enum { VOTES_LENGTH = RUN_LENGTH + 2 * HALL_RUN_BLOCK };

static const uint32_t run_votes[HALL_RECORDERS] = {HALL_MAX_VOTE};

/* Writes that run with any third word and votes into a slice. */
static uint32_t write_votes(uint8_t *file, size_t length, uint32_t n, uint32_t third, const uint32_t *votes,
                            size_t count, uint8_t *words, size_t words_len)
{
    static const uint32_t actions[4 * (HALL_MAX_ACTIONS + 1)] = {HALL_SUBMIT, 1, 700, 0, HALL_LABEL, 1, 0, 0};
    return hall_run_write(file, length, n, 1, third, votes[0], votes[1], votes[2], votes[3], votes[4], votes[5],
                          votes[6], votes[7], actions, 4 * count, words, words_len);
}

static void run_files_with_votes(void)
{
    static const uint8_t bytes[VOTES_LENGTH] = {
        1,    0, 0, 0, 1, 0, 0, 0, 1,    0, 0, 0, 0, 0, 0, 0,
        0xe8, 3, 0, 0, 0, 0, 0, 0, 0,    0, 0, 0, 0, 0, 0, 0,
        0,    0, 0, 0, 0, 0, 0, 0, 0,    0, 0, 0, 0, 0, 0, 0,
        1,    0, 0, 0, 1, 0, 0, 0, 0xbc, 2, 0, 0, 0, 0, 0, 0,
        2,    0, 0, 0, 1, 0, 0, 0, 0,    0, 0, 0, 0, 0, 0, 0,
        0x60, 0, 0, 0, 2, 0, 0, 0, 0,    0, 0, 0, 0, 0, 0, 0};
    const uint32_t opening[] = {1, 1, 48, 0, 2, 1, HALL_MAX_VOTE};
    const uint32_t later[] = {1, 1, 48 + 7, 0, 2, 1, HALL_MAX_VOTE};
    const uint32_t length[] = {VOTES_LENGTH};
    uint8_t *file = filled(VOTES_LENGTH + 7, 0xa5);
    uint8_t *words = filled(HALL_ANSWER_LENGTH, 0xa5);

    CHECK(hall_run_write_row(file + 7, VOTES_LENGTH, 1, 1, run_votes, run_actions, 8, words,
                             HALL_ANSWER_LENGTH) == 0);
    CHECK(words_are(words, 0, length, 1));
    CHECK(memcmp(file + 7, bytes, VOTES_LENGTH) == 0);
    CHECK(hall_run_read(file + 7, VOTES_LENGTH, words, HALL_ANSWER_LENGTH) == 0);
    CHECK(words_are(words, 0, opening, 7));
    CHECK(hall_run_read(file, VOTES_LENGTH + 7, words, HALL_ANSWER_LENGTH) == 0);
    CHECK(words_are(words, 0, later, 7));
    CHECK(hall_run_action(file, VOTES_LENGTH + 7, 48 + 7, words, HALL_ANSWER_LENGTH) == 0);
    CHECK(hall_word(words, HALL_ACTION_K) == HALL_SUBMIT && hall_word(words, HALL_ACTION_A) == 700);
    free(words);
    free(file);
}

/* With third word 0 the votes may be any: they are neither checked nor written,
 * and read back as 0. */
static void votes_not_written(void)
{
    static const uint32_t wrong[HALL_RECORDERS] = {1, 2, 3, 4, 5, 6, 7, UINT32_MAX};
    const uint32_t opening[] = {1, 1, 16, 0, 2};
    uint8_t *file = run_file();
    uint8_t *written = filled(RUN_LENGTH, 0xa5);
    uint8_t *words = filled(HALL_ANSWER_LENGTH, 0xa5);

    CHECK(write_votes(written, RUN_LENGTH, 1, 0, wrong, 2, words, HALL_ANSWER_LENGTH) == 0);
    CHECK(memcmp(file, written, RUN_LENGTH) == 0);
    CHECK(hall_run_read(written, RUN_LENGTH, words, HALL_ANSWER_LENGTH) == 0);
    CHECK(words_are(words, 0, opening, 5));
    free(words);
    free(written);
    free(file);
}

/* Writing: 16, 41, 19, 18; with a third word above 1 the votes are not looked
 * at. */
static void refused_votes_to_write(void)
{
    static const uint32_t none_voted[HALL_RECORDERS] = {0};
    static const uint32_t above[HALL_RECORDERS] = {1, 1};
    static const uint32_t over[HALL_RECORDERS] = {HALL_MAX_VOTE + 1};
    const size_t many = HALL_MAX_ACTIONS_WITH_VOTES + 1;
    const size_t most = HALL_ANSWER_LENGTH;
    uint8_t *file = filled(VOTES_LENGTH, 0x5a);
    uint8_t *words = filled(most, 0xa5);
    uint8_t *none = filled(0, 0);

    CHECK(write_votes(none, 0, 9, 1, over, many, none, 0) == HALL_REFUSED_OPENING);
    CHECK(write_votes(none, 0, 1, 1, over, many, none, 0) == HALL_REFUSED_VOTES);
    CHECK(write_votes(none, 0, 1, 1, above, many, none, 0) == HALL_REFUSED_VOTES);
    CHECK(write_votes(none, 0, 1, 1, none_voted, many, none, 0) == HALL_REFUSED_VOTES);
    CHECK(write_votes(none, 0, 1, 1, run_votes, many, none, 0) == HALL_REFUSED_FILE);
    CHECK(write_votes(none, 0, 9, 2, over, 2, none, 0) == HALL_REFUSED_OPENING);
    CHECK(write_votes(none, 0, 1, 2, over, 2, none, 0) == HALL_REFUSED_FILE);
    CHECK(write_votes(file, VOTES_LENGTH, 1, UINT32_MAX, run_votes, 2, words, most) == HALL_REFUSED_FILE);
    CHECK(write_votes(file, VOTES_LENGTH - 1, 1, 1, run_votes, 2, words, most) == HALL_REFUSED_SHORT);
    CHECK(write_votes(file, VOTES_LENGTH, 1, 1, run_votes, 2, words, most - 1) == HALL_REFUSED_SHORT);
    CHECK(holds_only(file, 0, VOTES_LENGTH, 0x5a));
    CHECK(holds_only(words, 0, most, 0xa5));
    CHECK(write_votes(file, VOTES_LENGTH, 2, 1, above, 2, words, most) == 0);
    free(none);
    free(words);
    free(file);
}

/* Reading: 19, 16, 41. */
static void refused_votes_to_read(void)
{
    const size_t votes = HALL_RUN_BLOCK;
    uint8_t *file = filled(VOTES_LENGTH, 0x5a);
    uint8_t *words = filled(HALL_ANSWER_LENGTH, 0xa5);
    uint8_t *none = filled(0, 0);

    CHECK(write_votes(file, VOTES_LENGTH, 1, 1, run_votes, 2, words, HALL_ANSWER_LENGTH) == 0);
    memset(words, 0xa5, HALL_ANSWER_LENGTH);
    CHECK(hall_run_read(file, VOTES_LENGTH, none, 0) == HALL_REFUSED_SHORT);
    file[votes]++; /* 1,001 */
    CHECK(hall_run_read(file, VOTES_LENGTH, none, 0) == HALL_REFUSED_VOTES);
    file[votes] = file[votes + 1] = 0; /* all 0 */
    CHECK(hall_run_read(file, VOTES_LENGTH, words, HALL_ANSWER_LENGTH) == HALL_REFUSED_VOTES);
    file[votes] = file[votes + 4] = 1; /* a recorder above N */
    CHECK(hall_run_read(file, VOTES_LENGTH, words, HALL_ANSWER_LENGTH) == HALL_REFUSED_VOTES);
    file[0] = 9;
    CHECK(hall_run_read(file, VOTES_LENGTH, words, HALL_ANSWER_LENGTH) == HALL_REFUSED_OPENING);
    file[8] = 0; /* the length of a run with votes */
    CHECK(hall_run_read(file, VOTES_LENGTH, words, HALL_ANSWER_LENGTH) == HALL_REFUSED_FILE);
    file[8] = 2;
    CHECK(hall_run_read(file, VOTES_LENGTH, words, HALL_ANSWER_LENGTH) == HALL_REFUSED_FILE);
    file[0] = file[8] = 1;
    file[VOTES_LENGTH - 12] = 4; /* the length of a run without votes */
    CHECK(hall_run_read(file, VOTES_LENGTH, words, HALL_ANSWER_LENGTH) == HALL_REFUSED_FILE);
    CHECK(holds_only(words, 0, HALL_ANSWER_LENGTH, 0xa5));
    free(none);
    free(words);
    free(file);
}

/* The longest run with votes, in a longer slice. */
static void longest_run_with_votes(void)
{
    const uint32_t length[] = {HALL_MAX_FILE};
    uint8_t *file = filled(HALL_MAX_FILE + 9, 0xa5);
    uint8_t *words = filled(HALL_ANSWER_LENGTH, 0xa5);

    CHECK(write_votes(file, HALL_MAX_FILE + 9, 1, 1, run_votes, HALL_MAX_ACTIONS_WITH_VOTES, words,
                      HALL_ANSWER_LENGTH) == 0);
    CHECK(words_are(words, 0, length, 1));
    CHECK(holds_only(file, HALL_MAX_FILE, HALL_MAX_FILE + 9, 0xa5));
    CHECK(hall_run_read(file, HALL_MAX_FILE, words, HALL_ANSWER_LENGTH) == 0);
    CHECK(hall_word(words, HALL_RUN_COUNT) == HALL_MAX_ACTIONS_WITH_VOTES);
    CHECK(hall_word(words, HALL_RUN_VOTES) == HALL_MAX_VOTE);
    free(words);
    free(file);
}

/* The longest run, in a longer slice; three words more are no action. */
static void longest_run(void)
{
    const size_t count = 4 * HALL_MAX_ACTIONS;
    const uint32_t length[] = {HALL_MAX_FILE};
    uint8_t *file = filled(HALL_MAX_FILE + 9, 0xa5);
    uint8_t *words = filled(HALL_ANSWER_LENGTH, 0xa5);
    uint32_t *actions = calloc(count + 3, sizeof *actions);
    if (!actions) {
        puts("no memory");
        exit(2);
    }

    CHECK(hall_run_write_built_in(file, HALL_MAX_FILE + 9, 8, 0, actions, count + 3, words,
                                  HALL_ANSWER_LENGTH) == 0);
    CHECK(words_are(words, 0, length, 1));
    CHECK(holds_only(file, HALL_MAX_FILE, HALL_MAX_FILE + 9, 0xa5));
    CHECK(hall_run_read(file, HALL_MAX_FILE, words, HALL_ANSWER_LENGTH) == 0);
    CHECK(hall_word(words, HALL_RUN_COUNT) == HALL_MAX_ACTIONS);
    free(actions);
    free(words);
    free(file);
}

/* The library is that of the header. */
static void same_version(void)
{
    CHECK(hall_version() == HALL_VERSION);
    CHECK(hall_length() == HALL_LENGTH);
}

/* 31 alone, in slices of any length. */
static void checked_halls(void)
{
    const size_t rest = 1000;
    uint8_t *hall = filled(HALL_LENGTH + rest, 0xa5);
    uint8_t *before = filled(HALL_LENGTH + rest, 0xa5);
    uint8_t *none = filled(0, 0);

    CHECK(hall_check(hall, HALL_LENGTH + rest) == HALL_REFUSED_BYTES);
    CHECK(hall_check(none, 0) == HALL_REFUSED_BYTES);
    CHECK(hall_open_built_in(hall, HALL_LENGTH, 3, 3) == 0);
    memcpy(before, hall, HALL_LENGTH);
    CHECK(hall_check(hall, HALL_LENGTH) == 0);
    CHECK(hall_check(hall, HALL_LENGTH + rest) == 0);
    CHECK(hall_check(hall, HALL_LENGTH - 1) == HALL_REFUSED_BYTES);
    CHECK(memcmp(hall, before, HALL_LENGTH + rest) == 0);
    hall[0] = 9; /* N */
    CHECK(hall_check(hall, HALL_LENGTH) == HALL_REFUSED_BYTES);
    hall[0] = before[0];
    hall[HALL_LENGTH - 1] = 1; /* a vote of a recorder above N */
    CHECK(hall_check(hall, HALL_LENGTH) == HALL_REFUSED_BYTES);
    free(none);
    free(before);
    free(hall);
}

/* The bytes of a file, in a slice of just their length. */
static uint8_t *bytes_of(const char *name, size_t *length)
{
    static uint8_t read[HALL_MAX_FILE];
    FILE *file = fopen(name, "rb");
    if (!file) {
        printf("%s cannot be read\n", name);
        exit(2);
    }
    *length = fread(read, 1, sizeof read, file);
    fclose(file);
    uint8_t *bytes = filled(*length, 0);
    memcpy(bytes, read, *length);
    return bytes;
}

/* Whether a file, with any bytes for its hall, has this listing in a text of just
 * its length and in a longer one, of which the rest stays. */
static int listing_is(const uint8_t *file, size_t file_len, uint8_t *hall, size_t hall_len, const void *listing,
                      uint32_t length)
{
    const size_t rest = 100;
    uint8_t *text = filled(length, 0xa5);
    uint8_t *longer = filled(length + rest, 0xa5);
    uint8_t *words = filled(HALL_ANSWER_LENGTH + 3, 0xa5);
    int ok = hall_run_list(file, file_len, hall, hall_len, text, length, words, HALL_ANSWER_LENGTH + 3) == 0 &&
             words_are(words, 3, &length, 1) && memcmp(text, listing, length) == 0 &&
             hall_run_list(file, file_len, hall, hall_len, longer, length + rest, words, HALL_ANSWER_LENGTH) == 0 &&
             memcmp(longer, listing, length) == 0 && holds_only(longer, length, length + rest, 0xa5);
    free(words);
    free(longer);
    free(text);
    return ok;
}

/* Whether a file is not listed into slices of these lengths, and all bytes
 * stay. */
static int listing_short(const uint8_t *file, size_t file_len, size_t hall_len, size_t text_len, size_t words_len)
{
    uint8_t *hall = filled(hall_len, 0x5a);
    uint8_t *text = filled(text_len, 0xa5);
    uint8_t *words = filled(words_len, 0xa5);
    int ok = hall_run_list(file, file_len, hall, hall_len, text, text_len, words, words_len) == HALL_REFUSED_SHORT &&
             holds_only(hall, 0, hall_len, 0x5a) && holds_only(text, 0, text_len, 0xa5) &&
             holds_only(words, 0, words_len, 0xa5);
    free(words);
    free(text);
    free(hall);
    return ok;
}

/* The example of docs/listing.md. The hall is the last one of its run. */
static void listed_run(void)
{
    const size_t rest = 1000;
    const uint32_t last[] = {1, 1, HALL_PHASE_NORMAL, 2, 1, 1, 0, 2, 2, 1, 1, 1, 700};
    size_t file_len;
    size_t listing_len;
    uint8_t *file = bytes_of("../../examples/first.run", &file_len);
    uint8_t *listing = bytes_of("../../examples/first.listing", &listing_len);
    uint8_t *hall = filled(HALL_LENGTH + rest, 0x5a);

    CHECK(listing_len == 123);
    CHECK(listing_is(file, file_len, hall, HALL_LENGTH + rest, listing, (uint32_t)listing_len));
    CHECK(page_gives(hall, 1, 1, last, 13));
    CHECK(holds_only(hall, HALL_LENGTH, HALL_LENGTH + rest, 0x5a));
    CHECK(listing_short(file, file_len, HALL_LENGTH - 1, HALL_MAX_LISTING, HALL_ANSWER_LENGTH));
    CHECK(listing_short(file, file_len, HALL_LENGTH, listing_len - 1, HALL_ANSWER_LENGTH));
    CHECK(listing_short(file, file_len, HALL_LENGTH, HALL_MAX_LISTING, HALL_ANSWER_LENGTH - 1));
    CHECK(listing_short(file, file_len, 0, 0, 0));
    free(hall);
    free(listing);
    free(file);
}

/* A file that is refused has a listing, and needs no hall. */
static void listed_refusals(void)
{
    const char *broken = "refused 19\n";
    const char *opening = "refused 16\n";
    const uint32_t length = 11;
    uint8_t *file = run_file();
    uint8_t *hall = filled(HALL_LENGTH, 0x5a);
    uint8_t *none = filled(0, 0);

    CHECK(listing_is(none, 0, none, 0, broken, length));
    CHECK(listing_is(file, RUN_LENGTH - 1, hall, HALL_LENGTH, broken, length));
    file[0] = 9;
    CHECK(listing_is(file, RUN_LENGTH, hall, HALL_LENGTH, opening, length));
    CHECK(holds_only(hall, 0, HALL_LENGTH, 0x5a));
    CHECK(listing_short(file, RUN_LENGTH, 0, length - 1, HALL_ANSWER_LENGTH));
    CHECK(listing_short(file, RUN_LENGTH, 0, length, HALL_ANSWER_LENGTH - 1));
    free(none);
    free(hall);
    free(file);
}

/* The longest run, of actions that are no kind, in a text that any listing
 * fits. */
static void longest_listing(void)
{
    const size_t count = 4 * HALL_MAX_ACTIONS;
    const char *end = "end 0 4094\n";
    uint8_t *file = filled(HALL_MAX_FILE, 0);
    uint8_t *hall = filled(HALL_LENGTH, 0);
    uint8_t *text = filled(HALL_MAX_LISTING, 0xa5);
    uint8_t *words = filled(HALL_ANSWER_LENGTH, 0xa5);
    uint32_t *actions = calloc(count, sizeof *actions);
    if (!actions) {
        puts("no memory");
        exit(2);
    }

    CHECK(HALL_MAX_LISTING == HALL_LISTING_LINE * (HALL_MAX_ACTIONS + 2));
    CHECK(hall_run_write_built_in(file, HALL_MAX_FILE, 8, 0, actions, count, words, HALL_ANSWER_LENGTH) == 0);
    CHECK(hall_run_list(file, HALL_MAX_FILE, hall, HALL_LENGTH, text, HALL_MAX_LISTING, words,
                        HALL_ANSWER_LENGTH) == 0);
    uint32_t length = hall_word(words, HALL_LISTING_LENGTH);
    CHECK(length > strlen(end) && memcmp(text + length - strlen(end), end, strlen(end)) == 0);
    CHECK(holds_only(text, length, HALL_MAX_LISTING, 0xa5));
    free(actions);
    free(words);
    free(text);
    free(hall);
    free(file);
}

/* What a line of text says: an opening (N, founders, third, votes) or an action. */
struct saying {
    const char *line;
    uint32_t line_case;
    uint32_t words[11];
};

static uint32_t print_line(const struct saying *says, uint8_t *text, size_t text_len, uint8_t *answer,
                           size_t answer_len)
{
    const uint32_t *w = says->words;
    if (says->line_case == HALL_LINE_ACTION) {
        return hall_print_action(w[0], w[1], w[2], w[3], text, text_len, answer, answer_len);
    }
    return hall_print_opening(w[0], w[1], w[2], w[3], w[4], w[5], w[6], w[7], w[8], w[9], w[10], text, text_len,
                              answer, answer_len);
}

/* Whether the line is printed into slices that are so many bytes longer than it and
 * its answer; these stay. */
static int line_printed(const struct saying *says, size_t rest)
{
    const uint32_t length = (uint32_t)strlen(says->line);
    uint8_t *text = filled(length + rest, 0xa5);
    uint8_t *answer = filled(HALL_ANSWER_LENGTH + rest, 0xa5);
    uint32_t number = print_line(says, text, length + rest, answer, HALL_ANSWER_LENGTH + rest);
    int ok = number == 0 && words_are(answer, rest, &length, 1) && memcmp(text, says->line, length) == 0 &&
             holds_only(text, length, length + rest, 0xa5);
    free(answer);
    free(text);
    return ok;
}

/* Whether it is refused with a number into slices of these lengths, and all bytes
 * stay. */
static int line_refused(const struct saying *says, size_t text_len, size_t answer_len, uint32_t wanted)
{
    uint8_t *text = filled(text_len, 0xa5);
    uint8_t *answer = filled(answer_len, 0xa5);
    uint32_t number = print_line(says, text, text_len, answer, answer_len);
    int ok = number == wanted && holds_only(text, 0, text_len, 0xa5) && holds_only(answer, 0, answer_len, 0xa5);
    free(answer);
    free(text);
    return ok;
}

/* Whether the line at an offset of a text has these words. */
static int line_gives(const char *lines, size_t at, const uint32_t *wanted, size_t count)
{
    size_t length = strlen(lines);
    uint8_t *text = filled(length, 0);
    uint8_t *words = filled(HALL_ANSWER_LENGTH + 3, 0xa5);
    memcpy(text, lines, length);
    uint32_t number = hall_parse_line(text, length, at, words, HALL_ANSWER_LENGTH + 3);
    int ok = number == 0 && words_are(words, 3, wanted, count) && memcmp(text, lines, length) == 0;
    free(words);
    free(text);
    return ok;
}

/* Whether a line reads as what it says, up to its end. */
static int line_read(const struct saying *says)
{
    uint32_t wanted[HALL_WORDS] = {says->line_case, (uint32_t)strlen(says->line)};
    memcpy(wanted + HALL_LINE_K, says->words, sizeof says->words);
    return line_gives(says->line, 0, wanted, HALL_WORDS);
}

/* Openings of all forms, an action of each kind, and words that no kind's line has. */
static void printed_lines(void)
{
    static const struct saying sayings[] = {
        {"hall 3\n", HALL_LINE_OPENING, {3}},
        {"hall 3 founders {1,2}\n", HALL_LINE_OPENING, {3, 3}},
        {"hall 3 founders whole\n", HALL_LINE_OPENING, {3, 7}},
        {"hall 1 founders whole\n", HALL_LINE_OPENING, {1, 1}},
        {"hall 3 votes 5 3 3 0 0 0 0 0\n", HALL_LINE_OPENING, {3, 0, 1, 5, 3, 3}},
        {"hall 8 founders {1,2,3,4,5,6,7} votes 1000 1000 1000 1000 1000 1000 1000 1000\n",
         HALL_LINE_OPENING,
         {8, 127, 1, 1000, 1000, 1000, 1000, 1000, 1000, 1000, 1000}},
        {"submit 2 101\n", HALL_LINE_ACTION, {HALL_SUBMIT, 2, 101}},
        {"label 2\n", HALL_LINE_ACTION, {HALL_LABEL, 2}},
        {"send 2\n", HALL_LINE_ACTION, {HALL_SEND_ENTRY, 2}},
        {"summary 2\n", HALL_LINE_ACTION, {HALL_SEND_SUMMARY, 2}},
        {"form 4 {1,3}\n", HALL_LINE_ACTION, {HALL_FORM, 0, 4, 5}},
        {"form 4294967295 {}\n", HALL_LINE_ACTION, {HALL_FORM, 0, 4294967295u, 0}},
        {"enter 3 4\n", HALL_LINE_ACTION, {HALL_ENTER, 3, 4}},
        {"place 3 4\n", HALL_LINE_ACTION, {HALL_PLACE, 3, 4}},
        {"receive 3\n", HALL_LINE_ACTION, {HALL_RECEIVE, 3}},
        {"safe 0\n", HALL_LINE_ACTION, {HALL_SAFE}},
        {"confirm 8\n", HALL_LINE_ACTION, {HALL_CONFIRM, 8}},
        {"deliver 4294967295\n", HALL_LINE_ACTION, {HALL_DELIVER, 4294967295u}},
        {"raw 12 9 0 0\n", HALL_LINE_ACTION, {12, 9}},
        {"raw 1 2 101 1\n", HALL_LINE_ACTION, {HALL_SUBMIT, 2, 101, 1}},
        {"raw 2 2 1 0\n", HALL_LINE_ACTION, {HALL_LABEL, 2, 1}},
        {"raw 5 1 4 5\n", HALL_LINE_ACTION, {HALL_FORM, 1, 4, 5}},
        {"raw 5 0 4 256\n", HALL_LINE_ACTION, {HALL_FORM, 0, 4, 256}},
        {"raw 4294967295 4294967295 4294967295 4294967295\n",
         HALL_LINE_ACTION,
         {4294967295u, 4294967295u, 4294967295u, 4294967295u}},
    };
    for (size_t i = 0; i < sizeof sayings / sizeof sayings[0]; i++) {
        size_t length = strlen(sayings[i].line);
        CHECK(length <= HALL_MAX_LINE);
        CHECK(line_printed(&sayings[i], 0));
        CHECK(line_printed(&sayings[i], 3));
        CHECK(line_read(&sayings[i]));
        CHECK(line_refused(&sayings[i], length - 1, HALL_ANSWER_LENGTH, HALL_REFUSED_SHORT));
        CHECK(line_refused(&sayings[i], length, HALL_ANSWER_LENGTH - 1, HALL_REFUSED_SHORT));
        CHECK(line_refused(&sayings[i], 0, 0, HALL_REFUSED_SHORT));
    }
}

/* 16, 41, 19, each before 18; with a third word other than 1 the votes are not
 * looked at. */
static void refused_lines(void)
{
    static const struct {
        uint32_t wanted;
        struct saying says;
    } openings[] = {
        {HALL_REFUSED_OPENING, {"", HALL_LINE_OPENING, {0}}},
        {HALL_REFUSED_OPENING, {"", HALL_LINE_OPENING, {9, 1}}},
        {HALL_REFUSED_OPENING, {"", HALL_LINE_OPENING, {3, 8}}},
        {HALL_REFUSED_OPENING, {"", HALL_LINE_OPENING, {9, 0, 1}}},
        {HALL_REFUSED_OPENING, {"", HALL_LINE_OPENING, {9, 0, 2}}},
        {HALL_REFUSED_VOTES, {"", HALL_LINE_OPENING, {3, 7, 1}}},
        {HALL_REFUSED_VOTES, {"", HALL_LINE_OPENING, {3, 7, 1, 1001}}},
        {HALL_REFUSED_VOTES, {"", HALL_LINE_OPENING, {3, 7, 1, 1, 1, 1, 1}}},
        {HALL_REFUSED_FILE, {"", HALL_LINE_OPENING, {3, 7, 2}}},
        {HALL_REFUSED_FILE, {"", HALL_LINE_OPENING, {3, 7, 4294967295u, 1001}}},
    };
    const struct saying unlooked = {"hall 3\n", HALL_LINE_OPENING, {3, 0, 0, 1001, 0, 0, 0, 0, 0, 0, 1}};
    for (size_t i = 0; i < sizeof openings / sizeof openings[0]; i++) {
        CHECK(line_refused(&openings[i].says, HALL_MAX_LINE, HALL_ANSWER_LENGTH, openings[i].wanted));
        CHECK(line_refused(&openings[i].says, 0, 0, openings[i].wanted));
    }
    CHECK(line_printed(&unlooked, 3));
}

/* A text line by line: blank ones, an opening, actions, wrong ones, and its end. */
static void read_lines(void)
{
    static const char text[] = "# a remark\n"
                               " \t\r\n"
                               "hall 9 founders whole votes 1 2 3 4 5 6 7 4294967295\r\n"
                               "\tform 004 {3,1}# another\n"
                               "raw 1 2 3 0\n"
                               "submit 9\n"
                               "hall 3 founders {}\n"
                               "raw 1 2 3 4294967296\n"
                               "Submit 1 2\n"
                               "label 2";
    static const uint32_t wanted[][HALL_WORDS] = {
        {HALL_LINE_BLANK, 11},
        {HALL_LINE_BLANK, 15},
        {HALL_LINE_OPENING, 69, 0, 9, 255, 1, 1, 2, 3, 4, 5, 6, 7, 4294967295u},
        {HALL_LINE_ACTION, 94, 0, HALL_FORM, 0, 4, 5},
        {HALL_LINE_ACTION, 106, 0, HALL_SUBMIT, 2, 3},
        {HALL_LINE_WRONG, 115, 0, HALL_SUBMIT},
        {HALL_LINE_WRONG, 134, 0, HALL_FIRST_HALL},
        {HALL_LINE_WRONG, 155, 0, HALL_FIRST_RAW},
        {HALL_LINE_WRONG, 166, 0, HALL_FIRST_NONE},
        {HALL_LINE_ACTION, 173, 0, HALL_LABEL, 2},
        {HALL_LINE_BLANK, 173},
    };
    const uint32_t past[] = {HALL_LINE_BLANK, (uint32_t)SIZE_MAX, (uint32_t)(SIZE_MAX >> 32)};
    const uint32_t digits[] = {HALL_LINE_WRONG, 106, 0, HALL_FIRST_NONE}; /* `1 2 3 0` */
    size_t at = 0;
    for (size_t i = 0; i < sizeof wanted / sizeof wanted[0]; i++) {
        CHECK(line_gives(text, at, wanted[i], HALL_WORDS));
        at = wanted[i][HALL_LINE_NEXT];
    }
    CHECK(line_gives(text, 98, digits, 4));
    CHECK(line_gives(text, SIZE_MAX, past, 3));
    CHECK(line_gives("", SIZE_MAX, past, 3));
    CHECK(line_gives("", 0, past, 0));
}

/* 18 alone. */
static void refused_reading(void)
{
    const char *line = "hall 3\n";
    for (size_t length = 0; length < HALL_ANSWER_LENGTH; length++) {
        uint8_t *words = filled(length, 0xa5);
        CHECK(hall_parse_line((const uint8_t *)line, strlen(line), 0, words, length) == HALL_REFUSED_SHORT);
        CHECK(holds_only(words, 0, length, 0xa5));
        free(words);
    }
}

int main(void)
{
    same_version();
    listing_card();
    second_view();
    view_numbers();
    longest_order();
    margins();
    margins_of_votes();
    primary_by_votes();
    built_in_votes();
    founders_zero();
    refused_votes();
    stored_votes();
    settled_halls();
    steps_of_a_settle();
    settles_not_primary();
    settles_full();
    refused_settles();
    signed_words();
    refused_calls();
    longer_slices();
    run_files();
    refused_run_files();
    longest_run();
    run_files_with_votes();
    votes_not_written();
    refused_votes_to_write();
    refused_votes_to_read();
    longest_run_with_votes();
    checked_halls();
    listed_run();
    listed_refusals();
    longest_listing();
    printed_lines();
    refused_lines();
    read_lines();
    refused_reading();
    return end_checks();
}
