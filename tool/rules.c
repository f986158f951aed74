/*
 * Why bytes are no hall: the rules of docs/stored-form.md, by their numbers there.
 * Those on single fields come first, so that the others can rely on them.
 */
#include "stored.h"

#include <string.h>

/* The other rules on single fields; those across fields are 1 to 8. */
enum {
    RULE_RISING = 11,
    RULE_LABEL = 12,
    RULE_PAST_LENGTH = 13,
    RULE_UNUSED = 14,
    RULE_UNSENT = 15
};

static const struct breach no_breach = {0, {NULL, 0, NULL, 0}};

/* The breach at a byte of a hall, none for NULL. */
static struct breach breach_at(const struct stored_hall *hall, unsigned rule, const uint8_t *at)
{
    if (!at) {
        return no_breach;
    }
    return (struct breach){rule, stored_place_at((size_t)(at - (const uint8_t *)hall))};
}

static const uint8_t *field_start(const struct stored_hall *hall, const struct stored_place *place)
{
    return (const uint8_t *)hall + stored_offset(place);
}

/* -- All fields in turn -------------------------------------------------- */

/* Looks at a field, item 0 of which is given. */
typedef struct breach judge(const struct stored_hall *hall, const struct stored_place *place);

/* Whether 0 is in the range of all numbers of a part. */
static int takes_zero(const struct stored_part *part)
{
    for (size_t i = 0; i < part->field_count; i++) {
        if (!stored_is_list(&part->fields[i]) && part->fields[i].least > 0) {
            return 0;
        }
    }
    return 1;
}

static struct breach judge_cell(const struct stored_hall *hall, const struct stored_part *part, size_t cell,
                                judge *look)
{
    struct breach breach = no_breach;
    for (size_t i = 0; i < part->field_count && breach.rule == 0; i++) {
        breach = look(hall, &(struct stored_place){part, cell, &part->fields[i], 0});
    }
    return breach;
}

/* A cell of zeros that are in range has nothing to judge. */
static struct breach judge_part(const struct stored_hall *hall, const struct stored_part *part, judge *look)
{
    const uint8_t *at = (const uint8_t *)hall + part->at;
    struct breach breach = no_breach;
    int passes_zero = takes_zero(part);
    for (size_t cell = 0; cell < part->cells && breach.rule == 0; cell++) {
        if (!passes_zero || stored_first_set(at + part->bytes * cell, part->bytes)) {
            breach = judge_cell(hall, part, cell, look);
        }
    }
    return breach;
}

static struct breach judge_hall(const struct stored_hall *hall, judge *look)
{
    struct breach breach = no_breach;
    const struct stored_part *part;
    for (size_t i = 0; breach.rule == 0 && (part = stored_part(i)) != NULL; i++) {
        breach = judge_part(hall, part, look);
    }
    return breach;
}

/* -- 10 to 15: single fields --------------------------------------------- */

static int is_in_range(const struct stored_hall *hall, const struct stored_place *place)
{
    struct range range = stored_range(hall, place);
    uint32_t value = stored_value(hall, place);
    return value >= range.least && value <= range.most;
}

/* Bytes of a list or queue from its start on: the length, and the places within it. */
static size_t bytes_within(const struct stored_field *field, const uint8_t *at)
{
    size_t bytes = 1 + at[0] * stored_place_bytes(field);
    return bytes < field->bytes ? bytes : field->bytes;
}

static struct breach judge_list(const struct stored_hall *hall, const struct stored_place *place)
{
    const uint8_t *at = field_start(hall, place);
    size_t within = bytes_within(place->field, at);
    struct stored_place item = *place;
    for (; item.item < within; item.item++) {
        if (!is_in_range(hall, &item)) {
            return (struct breach){RULE_RANGE, item};
        }
    }
    return breach_at(hall, RULE_PAST_LENGTH, stored_first_set(at + within, place->field->bytes - within));
}

static struct breach judge_set(const struct stored_hall *hall, const struct stored_place *place)
{
    const uint8_t *at = field_start(hall, place);
    for (size_t i = 0; i < place->field->bytes; i++) {
        if (at[i] > place->field->most) {
            return breach_at(hall, RULE_RANGE, at + i);
        }
    }
    return no_breach;
}

/* Whether a formed view has a greater number than the one before. */
static int is_rising(const struct stored_hall *hall, size_t index)
{
    return index == 0 || STORED(hall->views[index].number) > STORED(hall->views[index - 1].number);
}

/* Whether a label has both of its numbers, or none. */
static int is_whole_label(const struct stored_entry *entry)
{
    return (STORED(entry->seq) == 0) == (STORED(entry->view) == 0);
}

static struct breach judge_number(const struct stored_hall *hall, const struct stored_place *place)
{
    if (!is_in_range(hall, place)) {
        return (struct breach){RULE_RANGE, *place};
    }
    if (place->field->holds == HOLDS_FORMED && !is_rising(hall, place->cell)) {
        return (struct breach){RULE_RISING, *place};
    }
    if (place->field->holds == HOLDS_SEQUENCE && !is_whole_label(&hall->entries[place->cell])) {
        return (struct breach){RULE_LABEL, *place};
    }
    return no_breach;
}

/* Whether a field belongs to a summary that was not sent. */
static int is_unsent(const struct stored_hall *hall, const struct stored_place *place)
{
    return place->part->used == USED_ENDPOINTS && place->field->at > offsetof(struct stored_endpoint, sent) &&
           STORED(hall->endpoints[place->cell].sent) == 0;
}

static struct breach judge_field(const struct stored_hall *hall, const struct stored_place *place)
{
    const uint8_t *set = stored_first_set(field_start(hall, place), place->field->bytes);
    if (!stored_is_used(hall, place->part, place->cell)) {
        return breach_at(hall, RULE_UNUSED, set);
    }
    if (is_unsent(hall, place)) {
        return breach_at(hall, RULE_UNSENT, set);
    }
    if (stored_is_list(place->field)) {
        return judge_list(hall, place);
    }
    if (stored_is_set(place->field)) {
        return judge_set(hall, place);
    }
    return judge_number(hall, place);
}

/* -- 1: labels ----------------------------------------------------------- */

static int has_same_label(const struct stored_entry *one, const struct stored_entry *other)
{
    return STORED(one->view) == STORED(other->view) && STORED(one->seq) == STORED(other->seq) &&
           STORED(one->sender) == STORED(other->sender);
}

/* Whether an entry has the label of one before it. */
static int repeats_label(const struct stored_hall *hall, size_t e)
{
    for (size_t i = 0; i < e; i++) {
        if (has_same_label(&hall->entries[i], &hall->entries[e])) {
            return STORED(hall->entries[e].view) != 0;
        }
    }
    return 0;
}

static struct breach find_shared_label(const struct stored_hall *hall)
{
    for (size_t e = 0; e < stored_entries(hall); e++) {
        if (repeats_label(hall, e)) {
            return breach_at(hall, 1, hall->entries[e].view);
        }
    }
    return no_breach;
}

/* -- 2: what is named ---------------------------------------------------- */

/* The entry that a byte of a list, a queue or a set names, 0 for none. */
static uint32_t named_entry(enum holds holds, size_t item, uint8_t byte)
{
    switch (holds) {
    case HOLDS_LIST:
    case HOLDS_MESSAGES:
        return item == 0 ? 0 : byte;
    case HOLDS_QUEUE:
        return item % 2 == 1 || item == 0 ? 0 : byte;
    case HOLDS_ENTRIES:
        return byte == 0 ? 0 : (uint32_t)item + 1;
    default:
        return 0;
    }
}

static struct breach judge_named(const struct stored_hall *hall, const struct stored_place *place)
{
    const uint8_t *at = field_start(hall, place);
    size_t bytes = stored_is_list(place->field) ? bytes_within(place->field, at) : place->field->bytes;
    for (size_t i = 0; i < bytes; i++) {
        uint32_t e = named_entry(place->field->holds, i, at[i]);
        if (e != 0 && !stored_is_labelled(hall, e)) {
            return breach_at(hall, 2, at + i);
        }
    }
    return no_breach;
}

static struct breach find_unlabelled(const struct stored_hall *hall)
{
    return judge_hall(hall, judge_named);
}

/* -- 3 and 7: messages --------------------------------------------------- */

/* A pending summary that its recorder has not sent. */
static const uint8_t *unsent_pending(const struct stored_endpoint *endpoint)
{
    if (STORED(endpoint->sent) != 0) {
        return NULL;
    }
    return memchr(endpoint->pending + 1, 0, endpoint->pending[0]);
}

/* A queued summary that its source has not sent. */
static const uint8_t *unsent_queued(const struct stored_hall *hall, size_t index)
{
    const struct stored_queue *queue = &hall->queues[index];
    for (size_t place = 1; place <= queue->messages[0]; place++) {
        if (stored_message(queue, place) == 0 &&
            STORED(stored_endpoint(hall, stored_source(queue, place), index)->sent) == 0) {
            return &queue->messages[2 * place];
        }
    }
    return NULL;
}

/* What an endpoint has that only a member's may have. */
static const uint8_t *outside_endpoint(const struct stored_hall *hall, const struct stored_endpoint *endpoint)
{
    size_t cell = (size_t)(endpoint - hall->endpoints);
    if (stored_is_member(hall, cell % HALL_MAX_VIEWS, (uint32_t)(cell / HALL_MAX_VIEWS) + 1)) {
        return NULL;
    }
    return endpoint->pending[0] != 0 ? endpoint->pending : stored_first_set(endpoint->sent, sizeof endpoint->sent);
}

/* A queued message whose source is no member. */
static const uint8_t *outside_queued(const struct stored_hall *hall, size_t index)
{
    const struct stored_queue *queue = &hall->queues[index];
    for (size_t place = 1; place <= queue->messages[0]; place++) {
        if (!stored_is_member(hall, index, stored_source(queue, place))) {
            return &queue->messages[2 * place - 1];
        }
    }
    return NULL;
}

static struct breach find_unsent(const struct stored_hall *hall)
{
    const uint8_t *at = NULL;
    for (size_t cell = 0; cell < sizeof hall->endpoints / sizeof hall->endpoints[0] && !at; cell++) {
        at = unsent_pending(&hall->endpoints[cell]);
    }
    for (size_t index = 0; index < HALL_MAX_VIEWS && !at; index++) {
        at = unsent_queued(hall, index);
    }
    return breach_at(hall, 3, at);
}

static struct breach find_outside(const struct stored_hall *hall)
{
    const uint8_t *at = NULL;
    for (size_t cell = 0; cell < sizeof hall->endpoints / sizeof hall->endpoints[0] && !at; cell++) {
        at = outside_endpoint(hall, &hall->endpoints[cell]);
    }
    for (size_t index = 0; index < HALL_MAX_VIEWS && !at; index++) {
        at = outside_queued(hall, index);
    }
    return breach_at(hall, 7, at);
}

/* -- 4 to 6: recorders in their views ------------------------------------ */

/* The index of a recorder's current view, HALL_MAX_VIEWS if it has none. */
static size_t current_index(const struct stored_hall *hall, uint32_t r)
{
    return stored_view_index(hall, STORED(stored_recorder(hall, r)->view));
}

static struct breach find_foreign_view(const struct stored_hall *hall)
{
    for (uint32_t r = 1; r <= stored_n(hall); r++) {
        const struct stored_recorder *recorder = stored_recorder(hall, r);
        if (STORED(recorder->view) != 0 && !stored_is_member(hall, current_index(hall, r), r)) {
            return breach_at(hall, 4, recorder->view);
        }
    }
    return no_breach;
}

/* Whether recorder r may have heard a source. */
static int may_hear(const struct stored_hall *hall, uint32_t r, uint32_t source)
{
    size_t index = current_index(hall, r);
    return stored_is_member(hall, index, source) && STORED(stored_endpoint(hall, source, index)->sent) != 0;
}

static struct breach find_unheard(const struct stored_hall *hall)
{
    for (uint32_t r = 1; r <= stored_n(hall); r++) {
        for (uint32_t source = 1; source <= HALL_RECORDERS; source++) {
            const uint8_t *heard = &stored_recorder(hall, r)->heard[source - 1];
            if (*heard != 0 && !may_hear(hall, r, source)) {
                return breach_at(hall, 5, heard);
            }
        }
    }
    return no_breach;
}

static struct breach find_unsafe(const struct stored_hall *hall)
{
    for (uint32_t r = 1; r <= stored_n(hall); r++) {
        for (uint32_t source = 1; source <= HALL_RECORDERS; source++) {
            const uint8_t *safe = &stored_recorder(hall, r)->safe_sources[source - 1];
            if (*safe != 0 && !stored_is_member(hall, current_index(hall, r), source)) {
                return breach_at(hall, 6, safe);
            }
        }
    }
    return no_breach;
}

/* -- 8: votes ------------------------------------------------------------ */

static struct breach find_no_votes(const struct stored_hall *hall)
{
    const uint8_t *votes = hall->votes[0].votes;
    return breach_at(hall, 8, stored_first_set(votes, sizeof hall->votes) ? NULL : votes);
}

/* -- All rules ----------------------------------------------------------- */

struct breach find_breach(const struct stored_hall *hall)
{
    static struct breach (*const finders[])(const struct stored_hall *hall) = {
        find_shared_label, find_unlabelled, find_unsent, find_foreign_view,
        find_unheard,      find_unsafe,     find_outside, find_no_votes,
    };
    struct breach breach = judge_hall(hall, judge_field);
    for (size_t i = 0; i < sizeof finders / sizeof finders[0] && breach.rule == 0; i++) {
        breach = finders[i](hall);
    }
    return breach;
}

const char *rule_words(unsigned rule)
{
    static const struct hall_name words[] = {
        {1, "no two entries share a label"},
        {2, "only entries that have a label are named"},
        {3, "a pending or queued summary was sent"},
        {4, "a current view is formed and has the recorder in its set"},
        {5, "a heard source is a member of the current view and has sent its summary there"},
        {6, "a safe source is a member of the current view"},
        {7, "messages and summaries in a view are those of its members"},
        {8, "some recorder has votes"},
        {RULE_LENGTH, "a hall has " HALL_NAMES_TEXT(HALL_LENGTH) " bytes"},
        {RULE_RANGE, "its range is"},
        {RULE_RISING, "the numbers of formed views rise"},
        {RULE_LABEL, "a label has both numbers or none"},
        {RULE_PAST_LENGTH, "past its length a list is zero"},
        {RULE_UNUSED, "what is not used is zero"},
        {RULE_UNSENT, "a summary that was not sent is zero"},
    };
    return hall_find_name(words, sizeof words / sizeof words[0], rule, "unknown");
}
