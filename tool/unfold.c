/*
 * Actions of a text, and the words that the tool unfolds into them. The members of
 * a view are known from the founders and from the views that were formed.
 */
#include "story.h"

#include <inttypes.h>
#include <string.h>

/* -- Actions ------------------------------------------------------------- */

/* Keeps an action that the hall has answered. */
static void keep_action(struct story *story, const uint32_t *action, uint32_t number, const uint8_t *answer)
{
    if (!run_add_action(story->run, action)) {
        story->is_full = 1;
        return;
    }
    story->accepted[story->run->count - 1] = number == HALL_OK;
    if (action[K] == HALL_FORM && number == HALL_OK && story->formed < HALL_MAX_VIEWS) {
        story->views[story->formed++] = (struct view){action[A], action[B]};
    }
    answer_listed(number, answer, story->answered);
    story->last = LAST_ACTION;
}

/* Performs an action. HALL_OK, or the number of a refusal. */
static uint32_t step(struct story *story, const uint32_t *action, uint8_t answer[HALL_ANSWER_LENGTH])
{
    return hall_step_held(story->present.hall, HALL_LENGTH, story->present.undo, HALL_UNDO_LENGTH, action[K],
                          action[R], action[A], action[B], answer, HALL_ANSWER_LENGTH);
}

void take_action(struct story *story, uint32_t k, uint32_t r, uint32_t a, uint32_t b)
{
    const uint32_t action[ACTION_WORDS] = {k, r, a, b};
    uint8_t answer[HALL_ANSWER_LENGTH];
    uint32_t number = step(story, action, answer);
    keep_action(story, action, number, answer);
}

/* -- Views --------------------------------------------------------------- */

/* The set of view 1 in a hall just opened, as the page of a founder shows it. */
static uint32_t first_members(const struct story *story)
{
    uint8_t page[HALL_ANSWER_LENGTH];
    uint32_t set = 0;
    for (uint32_t r = 1; r <= story->run->opening.n && set == 0; r++) {
        if (hall_page(story->present.hall, HALL_LENGTH, r, 0, page, sizeof page) == HALL_OK) {
            set = hall_word(page, HALL_PAGE_SET);
        }
    }
    return set;
}

void begin_views(struct story *story)
{
    story->views[0] = (struct view){1, first_members(story)};
    story->formed = 1;
}

const struct view *find_view(const struct story *story, uint32_t number)
{
    for (size_t i = 0; i < story->formed; i++) {
        if (story->views[i].number == number) {
            return &story->views[i];
        }
    }
    return NULL;
}

/* The number of a recorder's current view, 0 for none. */
static uint32_t current_view(const struct story *story, uint32_t r)
{
    uint8_t page[HALL_ANSWER_LENGTH];
    uint32_t number = hall_page(story->present.hall, HALL_LENGTH, r, 0, page, sizeof page);
    return number == HALL_OK ? hall_word(page, HALL_PAGE_VIEW) : 0;
}

/* -- Words --------------------------------------------------------------- */

void take_all(struct story *story, uint32_t kind, const struct view *view)
{
    uint32_t a = kind == HALL_ENTER || kind == HALL_PLACE ? view->number : 0;
    for (uint32_t r = 1; r <= HALL_RECORDERS; r++) {
        if (is_member(view->members, r)) {
            take_action(story, kind, r, a, 0);
        }
    }
}

/* As many rounds of a kind as a view has members. */
static void take_rounds(struct story *story, uint32_t kind, const struct view *view)
{
    for (uint32_t r = 1; r <= HALL_RECORDERS; r++) {
        if (is_member(view->members, r)) {
            take_all(story, kind, view);
        }
    }
}

void take_exchange(struct story *story, const struct view *view)
{
    take_all(story, HALL_ENTER, view);
    take_all(story, HALL_SEND_SUMMARY, view);
    take_all(story, HALL_PLACE, view);
    take_rounds(story, HALL_RECEIVE, view);
    take_rounds(story, HALL_SAFE, view);
}

void take_log(struct story *story, uint32_t r, uint32_t value)
{
    uint32_t view = current_view(story, r);
    take_action(story, HALL_SUBMIT, r, value, 0);
    take_action(story, HALL_LABEL, r, 0, 0);
    take_action(story, HALL_SEND_ENTRY, r, 0, 0);
    take_action(story, HALL_PLACE, r, view, 0);
}

/* -- Settling ------------------------------------------------------------ */

/* The order in which a turn of a settle tries the kinds. */
static const uint32_t settle_kinds[] = {
    HALL_ENTER,   HALL_SEND_SUMMARY, HALL_SEND_ENTRY, HALL_LABEL,   HALL_PLACE,
    HALL_RECEIVE, HALL_SAFE,         HALL_CONFIRM,    HALL_DELIVER,
};

enum { SETTLE_KINDS = sizeof settle_kinds / sizeof settle_kinds[0] };

/* Calls that were refused and are not tried again before another action of their
 * recorder: a recorder's own state alone decides them. Kinds 8 and 9 depend on
 * others too. That this finds the right steps is compared with the settle. */
struct passed_over {
    unsigned char calls[SETTLE_KINDS][HALL_RECORDERS + 1];
};

static int is_own(uint32_t kind)
{
    return kind != HALL_RECEIVE && kind != HALL_SAFE;
}

/* Takes a call of a settle if the hall accepts it. Whether it does. */
static int try_call(struct story *story, const struct view *view, size_t i, uint32_t r, struct passed_over *passed)
{
    uint32_t k = settle_kinds[i];
    const uint32_t action[ACTION_WORDS] = {k, r, k == HALL_ENTER || k == HALL_PLACE ? view->number : 0, 0};
    uint8_t answer[HALL_ANSWER_LENGTH];
    if (passed->calls[i][r]) {
        return 0;
    }
    if (step(story, action, answer) != HALL_OK) {
        passed->calls[i][r] = (unsigned char)is_own(k);
        return 0;
    }
    for (size_t other = 0; other < SETTLE_KINDS; other++) {
        passed->calls[other][r] = 0;
    }
    keep_action(story, action, HALL_OK, answer);
    return 1;
}

/* Takes the first call that a turn of a settle finds. Whether there is one. */
static int take_turn(struct story *story, const struct view *view, struct passed_over *passed)
{
    for (size_t i = 0; i < SETTLE_KINDS; i++) {
        for (uint32_t r = 1; r <= HALL_RECORDERS; r++) {
            if (is_member(view->members, r) && try_call(story, view, i, r, passed)) {
                return 1;
            }
        }
    }
    return 0;
}

/* Whether the library's held settle counts the steps found, leads to their hall and
 * holds them. */
static int holds_steps(struct story *story, uint32_t found)
{
    uint8_t answer[HALL_ANSWER_LENGTH];
    struct held *held = &story->settled_held;
    return hall_settle_held(held->hall, HALL_LENGTH, held->undo, HALL_UNDO_LENGTH, answer, sizeof answer) == HALL_OK &&
           hall_word(answer, HALL_SETTLE_COUNT) == found && memcmp(held, &story->present, sizeof *held) == 0;
}

/* Compares the steps found with the library's settles: their count, the hall that they
 * lead to, and what is held of them. */
static void compare_settle(struct story *story, uint32_t counted, uint32_t found)
{
    if (found != counted || memcmp(story->present.hall, story->settled, HALL_LENGTH) != 0) {
        complain(story->io, STATUS_DIFFERS, story->run->name, story->line,
                 "the settle counts %" PRIu32 " steps, and the %" PRIu32 " found do not lead to its hall", counted,
                 found);
        story->run->failed = 1;
    } else if (!holds_steps(story, found)) {
        complain(story->io, STATUS_DIFFERS, story->run->name, story->line,
                 "the settle does not hold the %" PRIu32 " steps found", found);
        story->run->failed = 1;
    }
}

/* Takes the steps of a settle that was accepted, and compares them with it. How many
 * they are. */
static uint32_t take_steps(struct story *story, uint32_t counted)
{
    const struct view *view = &story->views[story->formed - 1];
    struct passed_over passed = {{{0}}};
    uint32_t found = 0;
    story->last = LAST_NONE;
    while (!story->is_full && take_turn(story, view, &passed)) {
        found++;
    }
    if (!story->is_full) {
        compare_settle(story, counted, found);
    }
    return found;
}

/* The answer of what is done. */
static const uint8_t done[HALL_ANSWER_LENGTH] = {HALL_CASE_DONE};

/* Notes a settle without an action: it has no place in a run. */
static enum status note_settle(struct story *story, uint32_t number)
{
    struct note note = {NOTE_SETTLE, story->run->count, story->line, number, 0};
    if (!run_add_note(story->run, note)) {
        return complain_memory(story->io, story->run->name);
    }
    story->last = LAST_SETTLE;
    story->settle = story->run->note_count - 1;
    answer_listed(number, done, story->answered);
    return STATUS_FINE;
}

enum status take_settle(struct story *story)
{
    uint8_t answer[HALL_ANSWER_LENGTH];
    memcpy(story->settled, story->present.hall, HALL_LENGTH);
    story->settled_held = story->present;
    uint32_t number = hall_settle(story->settled, HALL_LENGTH, answer, sizeof answer);
    if (number != HALL_OK) {
        return note_settle(story, number);
    }
    uint32_t found = take_steps(story, hall_word(answer, HALL_SETTLE_COUNT));
    return found == 0 && story->reading == READ_TYPED ? note_settle(story, HALL_OK) : STATUS_FINE;
}

/* -- Steps back ------------------------------------------------------------ */

size_t newest_accepted(const struct story *story)
{
    size_t place = story->run->count;
    while (place > 0 && !story->accepted[place - 1]) {
        place--;
    }
    return place;
}

/* Takes the action at a place, and all after it, out of the run. */
static void drop_from(struct story *story, size_t place)
{
    const uint32_t *action = story->run->actions + ACTION_WORDS * (place - 1);
    if (action[K] == HALL_FORM && story->formed > 1) {
        story->formed--;
    }
    story->run->count = place - 1;
}

uint32_t take_back(struct story *story)
{
    struct held *present = &story->present;
    size_t place = newest_accepted(story);
    uint32_t number = hall_step_back(present->hall, HALL_LENGTH, present->undo, HALL_UNDO_LENGTH);
    if (number == HALL_OK && place != 0) {
        drop_from(story, place);
    }
    answer_listed(number, done, story->answered);
    story->last = LAST_TOLD;
    return number;
}
