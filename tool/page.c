/* The page of a recorder in words, and what differs on two of them. */
#include "tool.h"

#include <inttypes.h>
#include <string.h>

uint32_t page_confirmed(const uint8_t *page)
{
    return hall_word(page, HALL_PAGE_CONFIRM) - 1;
}

uint32_t page_delivered(const uint8_t *page)
{
    return hall_word(page, HALL_PAGE_REPORT) - 1;
}

void page_of(const uint8_t *hall, uint32_t r, uint8_t page[HALL_ANSWER_LENGTH])
{
    if (hall_page(hall, HALL_LENGTH, r, 0, page, HALL_ANSWER_LENGTH) != HALL_OK) {
        memset(page, 0, HALL_ANSWER_LENGTH);
    }
}

/* -- Fields -------------------------------------------------------------- */

static void number_words(uint32_t number, char words[MAX_WORDS])
{
    snprintf(words, MAX_WORDS, "%" PRIu32, number);
}

/* The number of a view, of which 0 is none. */
static void view_number_words(uint32_t number, char words[MAX_WORDS])
{
    if (number == 0) {
        snprintf(words, MAX_WORDS, "none");
    } else {
        number_words(number, words);
    }
}

static void view_field(const uint8_t *page, char words[MAX_WORDS])
{
    view_number_words(hall_word(page, HALL_PAGE_VIEW), words);
}

static void members_field(const uint8_t *page, char words[MAX_WORDS])
{
    set_words(hall_word(page, HALL_PAGE_SET), words);
}

static void margin_field(const uint8_t *page, char words[MAX_WORDS])
{
    snprintf(words, MAX_WORDS, "%" PRId32, hall_signed(page, HALL_PAGE_MARGIN));
}

static void phase_field(const uint8_t *page, char words[MAX_WORDS])
{
    snprintf(words, MAX_WORDS, "%s", hall_phase_name(hall_word(page, HALL_PAGE_PHASE)));
}

static void highest_field(const uint8_t *page, char words[MAX_WORDS])
{
    view_number_words(hall_word(page, HALL_PAGE_HIGHEST), words);
}

static void log_field(const uint8_t *page, char words[MAX_WORDS])
{
    number_words(hall_word(page, HALL_PAGE_ORDER_LENGTH), words);
}

static void unsent_field(const uint8_t *page, char words[MAX_WORDS])
{
    number_words(hall_word(page, HALL_PAGE_BUFFER_LENGTH), words);
}

static void confirmed_field(const uint8_t *page, char words[MAX_WORDS])
{
    number_words(page_confirmed(page), words);
}

static void delivered_field(const uint8_t *page, char words[MAX_WORDS])
{
    number_words(page_delivered(page), words);
}

struct page_field {
    const char *name;
    void (*put)(const uint8_t *page, char words[MAX_WORDS]);
};

static const struct page_field page_fields[] = {
    {"view", view_field},
    {"members", members_field},
    {"margin", margin_field},
    {"phase", phase_field},
    {"highest primary", highest_field},
    {"log", log_field},
    {"to be sent", unsent_field},
    {"confirmed", confirmed_field},
    {"delivered", delivered_field},
};

size_t changes_words(const uint8_t *before, const uint8_t *after, const char *between, char words[MAX_CHANGES])
{
    size_t count = 0, length = 0;
    words[0] = '\0';
    for (size_t i = 0; i < sizeof page_fields / sizeof page_fields[0]; i++) {
        char old[MAX_WORDS], new[MAX_WORDS];
        page_fields[i].put(before, old);
        page_fields[i].put(after, new);
        if (strcmp(old, new) != 0 && length < MAX_CHANGES) {
            length += (size_t)snprintf(words + length, MAX_CHANGES - length, "%s%s %s %s %s", count == 0 ? "" : ", ",
                                       page_fields[i].name, old, between, new);
            count++;
        }
    }
    return count;
}

/* -- The whole page ------------------------------------------------------ */

/* How far a place of the log has come. */
static const char *place_state(uint32_t place, const uint8_t *page)
{
    if (place <= page_delivered(page)) {
        return "delivered";
    }
    return place <= page_confirmed(page) ? "confirmed" : "not confirmed";
}

/* One line for each place of the order. HALL_OK, or the number of a refusal. */
static uint32_t print_log(FILE *to, const uint8_t *hall, uint32_t r, uint32_t length)
{
    if (length != 0) {
        fprintf(to, "  %5s  %19s  %10s  state\n", "place", "label", "value");
    }
    for (uint32_t place = 1; place <= length; place++) {
        uint8_t page[HALL_ANSWER_LENGTH];
        char label[MAX_WORDS];
        uint32_t number = hall_page(hall, HALL_LENGTH, r, place, page, sizeof page);
        if (number != HALL_OK) {
            return number;
        }
        snprintf(label, sizeof label, "%" PRIu32 ".%" PRIu32 ".%" PRIu32, hall_word(page, HALL_PAGE_LABEL_VIEW),
                 hall_word(page, HALL_PAGE_LABEL_SEQ), hall_word(page, HALL_PAGE_LABEL_SENDER));
        fprintf(to, "  %5" PRIu32 "  %19s  %10" PRIu32 "  %s\n", place, label, hall_word(page, HALL_PAGE_VALUE),
                place_state(place, page));
    }
    return HALL_OK;
}

uint32_t print_page(FILE *to, const uint8_t *hall, uint32_t r)
{
    uint8_t page[HALL_ANSWER_LENGTH];
    uint32_t number = hall_page(hall, HALL_LENGTH, r, 0, page, sizeof page);
    if (number != HALL_OK) {
        return number;
    }
    fprintf(to, "recorder %" PRIu32 "\n", r);
    for (size_t i = 0; i < sizeof page_fields / sizeof page_fields[0]; i++) {
        char words[MAX_WORDS];
        page_fields[i].put(page, words);
        fprintf(to, "  %-15s  %s\n", page_fields[i].name, words);
    }
    return print_log(to, hall, r, hall_word(page, HALL_PAGE_ORDER_LENGTH));
}
