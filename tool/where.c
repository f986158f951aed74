/*
 * hall where: what has become of an entry, read from the bytes of the hall. What
 * pages and answers tell of it too is compared with them.
 */
#include "stored.h"

#include <inttypes.h>
#include <string.h>

/* -- What the bytes say -------------------------------------------------- */

/* How far an entry has come at a recorder. */
enum reached {
    UNKNOWN,
    WAITING,
    BUFFERED,
    PENDING,
    QUEUED,
    KNOWN,
    ORDERED,
    CONFIRMED,
    DELIVERED
};

struct state {
    enum reached reached;
    size_t place;  /* in the queue or the order, else 0 */
    uint32_t view; /* of the queue or the pending list, else 0 */
};

/* The place of an entry in a list, 0 if it is not there. */
static size_t place_in(const uint8_t *list, uint32_t e)
{
    const uint8_t *at = memchr(list + 1, (int)e, list[0]);
    return at ? (size_t)(at - list) : 0;
}

/* The place of an entry in a queue after so many, 0 if it is not there. */
static size_t place_after(const struct stored_queue *queue, size_t received, uint32_t e)
{
    for (size_t place = received + 1; place <= queue->messages[0]; place++) {
        if (stored_message(queue, place) == e) {
            return place;
        }
    }
    return 0;
}

/* The place of an entry in the queue of a recorder's view, 0 if it is not there or
 * was received. */
static size_t queued_place(const struct stored_hall *hall, uint32_t r, uint32_t e)
{
    size_t index = stored_view_index(hall, STORED(stored_recorder(hall, r)->view));
    if (index == HALL_MAX_VIEWS) {
        return 0;
    }
    return place_after(&hall->queues[index], STORED(stored_endpoint(hall, r, index)->receive), e);
}

/* The view in which an entry is pending at a recorder, 0 if in none. */
static uint32_t pending_view(const struct stored_hall *hall, uint32_t r, uint32_t e)
{
    for (size_t index = 0; index < stored_formed(hall); index++) {
        if (place_in(stored_endpoint(hall, r, index)->pending, e) != 0) {
            return STORED(hall->views[index].number);
        }
    }
    return 0;
}

/* How far the place of an order has come. */
static enum reached reached_in_order(const struct stored_recorder *recorder, size_t place)
{
    if (place <= STORED(recorder->report)) {
        return DELIVERED;
    }
    return place <= STORED(recorder->confirm) ? CONFIRMED : ORDERED;
}

/* How far an entry has come that is in no order, queue or pending list of a recorder. */
static enum reached reached_alone(const struct stored_hall *hall, uint32_t r, uint32_t e)
{
    const struct stored_recorder *recorder = stored_recorder(hall, r);
    if (place_in(recorder->buffer, e) != 0) {
        return BUFFERED;
    }
    if (!stored_is_labelled(hall, e)) {
        return STORED(hall->entries[e - 1].sender) == r ? WAITING : UNKNOWN;
    }
    return recorder->known[e - 1] != 0 ? KNOWN : UNKNOWN;
}

/* What has become of entry e at recorder r. */
static struct state state_of(const struct stored_hall *hall, uint32_t r, uint32_t e)
{
    const struct stored_recorder *recorder = stored_recorder(hall, r);
    size_t ordered = place_in(recorder->order, e), queued = queued_place(hall, r, e);
    uint32_t pending = pending_view(hall, r, e);
    if (ordered != 0) {
        return (struct state){reached_in_order(recorder, ordered), ordered, 0};
    }
    if (queued != 0) {
        return (struct state){QUEUED, queued, STORED(recorder->view)};
    }
    if (pending != 0) {
        return (struct state){PENDING, 0, pending};
    }
    return (struct state){reached_alone(hall, r, e), 0, 0};
}

static struct entry entry_of(const struct stored_hall *hall, uint32_t e)
{
    const struct stored_entry *entry = &hall->entries[e - 1];
    return (struct entry){STORED(entry->view), STORED(entry->seq), STORED(entry->sender), STORED(entry->value)};
}

/* Which entry of its sender an entry is, from 0 on. */
static size_t count_before(const struct stored_hall *hall, uint32_t e)
{
    size_t count = 0;
    for (uint32_t i = 1; i < e; i++) {
        count += STORED(hall->entries[i - 1].sender) == STORED(hall->entries[e - 1].sender);
    }
    return count;
}

/* -- What the library says ----------------------------------------------- */

/* A search that is being told. */
struct search {
    const struct streams *io;
    const struct run *run;
    struct walk walk;
    struct lists lists; /* of the same actions */
    int differs;        /* whether the bytes say something else than the library */
};

static const struct stored_hall *hall_of(const struct search *search)
{
    return (const struct stored_hall *)search->walk.hall;
}

/* Tells a difference. Gives 0 back. */
static int differ(struct search *search, uint32_t e, uint32_t r, const char *words)
{
    complain(search->io, STATUS_DIFFERS, search->run->name, 0, "entry %" PRIu32 " at recorder %" PRIu32 ": %s", e, r,
             words);
    search->differs = 1;
    return 0;
}

/* Whether a number in the bytes is the one that the library tells; else it says so. */
static int same_number(struct search *search, uint32_t e, uint32_t r, const char *what, uint32_t stored, uint32_t told,
                       const char *where)
{
    char words[MAX_WORDS];
    snprintf(words, sizeof words, "%s %" PRIu32 " in the bytes, %" PRIu32 " %s", what, stored, told, where);
    return stored == told || differ(search, e, r, words);
}

/* The same of an entry. */
static int same_label(struct search *search, uint32_t e, uint32_t r, const struct entry *told, const char *where)
{
    struct entry stored = entry_of(hall_of(search), e);
    char one[MAX_WORDS], other[MAX_WORDS], words[3 * MAX_WORDS];
    entry_words(&stored, one);
    entry_words(told, other);
    snprintf(words, sizeof words, "%s in the bytes, %s %s", one, other, where);
    return same_entry(&stored, told) || differ(search, e, r, words);
}

/* The label of an entry and its value, as the answers have them. */
static void compare_submitted(struct search *search, uint32_t e)
{
    static const struct entry none = {0, 0, 0, 0};
    uint32_t sender = entry_of(hall_of(search), e).sender;
    const struct list *submitted = &search->lists.submitted[sender - 1];
    size_t which = count_before(hall_of(search), e);
    same_label(search, e, sender, which < submitted->length ? &submitted->entries[which] : &none, "by the answers");
}

/* The marks, and the entry at a place of the order, as the page has them. */
static int same_page(struct search *search, uint32_t e, uint32_t r, size_t place)
{
    const struct stored_recorder *recorder = stored_recorder(hall_of(search), r);
    uint8_t page[HALL_ANSWER_LENGTH];
    uint32_t number = hall_page(search->walk.hall, HALL_LENGTH, r, (uint32_t)place, page, sizeof page);
    if (number != HALL_OK) {
        return differ(search, e, r, "the page with this place of the bytes is refused");
    }
    if (!same_number(search, e, r, "confirmed", STORED(recorder->confirm), page_confirmed(page), "on the page") ||
        !same_number(search, e, r, "delivered", STORED(recorder->report), page_delivered(page), "on the page")) {
        return 0;
    }
    const struct entry shown = page_entry(page);
    return place == 0 || same_label(search, e, r, &shown, "on the page");
}

/* The place of an entry in a list, 0 if it is not there. */
static size_t place_of(const struct list *list, const struct entry *entry)
{
    for (size_t i = 0; i < list->length; i++) {
        if (same_entry(&list->entries[i], entry)) {
            return i + 1;
        }
    }
    return 0;
}

static void compare_state(struct search *search, uint32_t e, uint32_t r, const struct state *state)
{
    struct entry entry = entry_of(hall_of(search), e);
    size_t told = place_of(&search->lists.delivered[r - 1], &entry);
    if (same_page(search, e, r, state->reached >= ORDERED ? state->place : 0)) {
        same_number(search, e, r, "delivered at place", state->reached == DELIVERED ? (uint32_t)state->place : 0,
                    (uint32_t)told, "by the answers");
    }
}

/* -- What is told -------------------------------------------------------- */

static void print_state(FILE *to, uint32_t r, const struct state *state)
{
    static const char *const names[] = {
        [UNKNOWN] = "unknown",
        [WAITING] = "waiting",
        [BUFFERED] = "buffered",
        [PENDING] = "pending",
        [QUEUED] = "queued",
        [KNOWN] = "known",
        [ORDERED] = "ordered",
        [CONFIRMED] = "confirmed",
        [DELIVERED] = "delivered",
    };
    fprintf(to, "  recorder %" PRIu32 "  %s", r, names[state->reached]);
    if (state->view != 0) {
        fprintf(to, " in view %" PRIu32, state->view);
    }
    if (state->place != 0) {
        fprintf(to, " at place %zu", state->place);
    }
    putc('\n', to);
}

static void print_entry(FILE *to, uint32_t e, const struct entry *entry)
{
    if (entry->view == 0) {
        fprintf(to, "entry %" PRIu32 "  no label  from %" PRIu32 "\n", e, entry->sender);
    } else {
        fprintf(to, "entry %" PRIu32 "  label %" PRIu32 ".%" PRIu32 ".%" PRIu32 "  from %" PRIu32 "\n", e, entry->view,
                entry->seq, entry->sender, entry->sender);
    }
}

static void tell_entry(struct search *search, uint32_t e)
{
    const struct stored_hall *hall = hall_of(search);
    struct entry entry = entry_of(hall, e);
    print_entry(search->io->out, e, &entry);
    compare_submitted(search, e);
    for (uint32_t r = 1; r <= stored_n(hall); r++) {
        struct state state = state_of(hall, r, e);
        print_state(search->io->out, r, &state);
        compare_state(search, e, r, &state);
    }
}

/* Tells of each entry with a value. How many there are. */
static size_t tell_entries(struct search *search, uint32_t value)
{
    const struct stored_hall *hall = hall_of(search);
    size_t count = 0;
    for (uint32_t e = 1; e <= stored_entries(hall); e++) {
        if (STORED(hall->entries[e - 1].value) == value) {
            tell_entry(search, e);
            count++;
        }
    }
    return count;
}

/* -- The command --------------------------------------------------------- */

static enum status tell_value(const struct streams *io, const struct run *run, size_t actions, uint32_t value)
{
    struct search search = {.io = io, .run = run};
    uint32_t number = walk_open(&search.walk, run);
    while (number == HALL_OK && search.walk.done < actions) {
        walk_step(&search.walk);
    }
    if (number == HALL_OK) {
        number = lists_gather(&search.lists, run, actions);
    }
    if (number != HALL_OK) {
        return complain_refused(io, run->name, 0, number);
    }
    if (tell_entries(&search, value) == 0) {
        return complain(io, STATUS_DIFFERS, run->name, 0, "after %zu actions no entry has the value %" PRIu32, actions,
                        value);
    }
    if (search.lists.unlike != 0 && !search.differs) {
        return complain(io, STATUS_DIFFERS, run->name, 0, "action %zu answers another entry than the page showed",
                        search.lists.unlike);
    }
    return search.differs || run->failed ? STATUS_DIFFERS : STATUS_FINE;
}

enum status where_command(const struct streams *io, const struct options *options)
{
    struct run run;
    uint32_t value;
    if (!field_number((struct field){options->words[1], strlen(options->words[1])}, &value)) {
        return complain(io, STATUS_USAGE, "hall", 0, "a value is a number up to %" PRIu32 ": %.40s", UINT32_MAX,
                        options->words[1]);
    }
    enum status status = run_read(io, options->words[0], READ_ASKS, &run);
    if (status == STATUS_FINE && options->has_at) {
        status = check_count(io, &run, "--at", options->at);
    }
    if (status == STATUS_FINE) {
        status = tell_value(io, &run, options->has_at ? options->at : run.count, value);
    }
    run_free(&run);
    return status;
}
