/* What was submitted, delivered and confirmed in a run, from answers and pages alone. */
#include "tool.h"

#include <inttypes.h>
#include <string.h>

static void add_entry(struct list *list, struct entry entry)
{
    if (list->length < HALL_MAX_ENTRIES) {
        list->entries[list->length++] = entry;
    }
}

struct entry page_entry(const uint8_t *page)
{
    return (struct entry){hall_word(page, HALL_PAGE_LABEL_VIEW), hall_word(page, HALL_PAGE_LABEL_SEQ),
                          hall_word(page, HALL_PAGE_LABEL_SENDER), hall_word(page, HALL_PAGE_VALUE)};
}

/* The entry at a place of a recorder's order. HALL_OK, or the number of a refusal. */
static uint32_t entry_at(const uint8_t *hall, uint32_t r, size_t place, struct entry *entry)
{
    uint8_t page[HALL_ANSWER_LENGTH];
    uint32_t number = hall_page(hall, HALL_LENGTH, r, (uint32_t)place, page, sizeof page);
    if (number == HALL_OK) {
        *entry = page_entry(page);
    }
    return number;
}

/* -- Along the run ------------------------------------------------------- */

/* What is kept from action to action. */
struct gathering {
    struct lists *lists;
    size_t labelled[HALL_RECORDERS]; /* entries of each recorder that have their label */
    uint32_t seq[HALL_RECORDERS];    /* labels given in its current view */
};

/* The k-th accepted label labels the k-th entry, with the recorder's view and the
 * next number in it. */
static void take_label(struct gathering *gathering, const uint8_t *hall, uint32_t r)
{
    uint8_t page[HALL_ANSWER_LENGTH];
    struct list *submitted = &gathering->lists->submitted[r - 1];
    size_t place = gathering->labelled[r - 1]++;
    uint32_t seq = ++gathering->seq[r - 1];
    if (place < submitted->length && hall_page(hall, HALL_LENGTH, r, 0, page, sizeof page) == HALL_OK) {
        submitted->entries[place].view = hall_word(page, HALL_PAGE_VIEW);
        submitted->entries[place].seq = seq;
    }
}

/* Adds the entry that the page showed, and compares it with the answer. */
static void take_deliver(struct gathering *gathering, const struct walk *walk, uint32_t r, const struct entry *shown)
{
    struct lists *lists = gathering->lists;
    add_entry(&lists->delivered[r - 1], *shown);
    if (lists->unlike == 0 && (hall_word(walk->answer, HALL_FROM_SENDER) != shown->sender ||
                               hall_word(walk->answer, HALL_FROM_VALUE) != shown->value)) {
        lists->unlike = walk->done;
    }
}

static void gather_action(struct gathering *gathering, struct walk *walk)
{
    struct lists *lists = gathering->lists;
    const uint32_t *action = walk_next(walk);
    uint32_t r = action[R];
    struct entry shown = {0, 0, 0, 0};
    if (action[K] == HALL_DELIVER && r >= 1 && r <= lists->n) {
        entry_at(walk->hall, r, lists->delivered[r - 1].length + 1, &shown);
    }
    walk_step(walk);
    if (walk->number != HALL_OK || r < 1 || r > lists->n) {
        return;
    }
    switch (action[K]) {
    case HALL_SUBMIT:
        add_entry(&lists->submitted[r - 1], (struct entry){0, 0, r, action[A]});
        break;
    case HALL_LABEL:
        take_label(gathering, walk->hall, r);
        break;
    case HALL_ENTER:
        gathering->seq[r - 1] = 0;
        break;
    case HALL_DELIVER:
        take_deliver(gathering, walk, r, &shown);
        break;
    default:
        break;
    }
}

/* -- At its end ---------------------------------------------------------- */

/* The order of a recorder, what is confirmed of it, and its highest primary. */
static uint32_t gather_order(struct lists *lists, const uint8_t *hall, uint32_t r)
{
    uint8_t page[HALL_ANSWER_LENGTH];
    uint32_t number = hall_page(hall, HALL_LENGTH, r, 0, page, sizeof page);
    if (number != HALL_OK) {
        return number;
    }
    lists->highest[r - 1] = hall_word(page, HALL_PAGE_HIGHEST);
    for (uint32_t place = 1; place <= hall_word(page, HALL_PAGE_ORDER_LENGTH); place++) {
        struct entry entry;
        number = entry_at(hall, r, place, &entry);
        if (number != HALL_OK) {
            return number;
        }
        add_entry(&lists->order[r - 1], entry);
        if (place <= page_confirmed(page)) {
            add_entry(&lists->confirmed[r - 1], entry);
        }
    }
    return HALL_OK;
}

uint32_t lists_gather(struct lists *lists, const struct run *run, size_t actions)
{
    struct walk walk;
    struct gathering gathering;
    memset(lists, 0, sizeof *lists);
    memset(&gathering, 0, sizeof gathering);
    gathering.lists = lists;
    lists->n = run->opening.n;
    uint32_t number = walk_open(&walk, run);
    while (number == HALL_OK && walk.done < actions) {
        gather_action(&gathering, &walk);
    }
    for (uint32_t r = 1; r <= lists->n && number == HALL_OK; r++) {
        number = gather_order(lists, walk.hall, r);
    }
    return number;
}

/* -- Two lists ----------------------------------------------------------- */

int same_entry(const struct entry *one, const struct entry *other)
{
    return one->view == other->view && one->seq == other->seq && one->sender == other->sender &&
           one->value == other->value;
}

size_t list_agrees(const struct list *one, const struct list *other)
{
    size_t count = 0;
    while (count < one->length && count < other->length && same_entry(&one->entries[count], &other->entries[count])) {
        count++;
    }
    return count;
}

int list_begins(const struct list *one, const struct list *other)
{
    return list_agrees(one, other) == one->length;
}

void entry_words(const struct entry *entry, char words[MAX_WORDS])
{
    if (entry->view == 0) {
        snprintf(words, MAX_WORDS, "waiting %" PRIu32, entry->value);
    } else {
        snprintf(words, MAX_WORDS, "%" PRIu32 ".%" PRIu32 ".%" PRIu32 " %" PRIu32, entry->view, entry->seq,
                 entry->sender, entry->value);
    }
}
