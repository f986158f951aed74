/*
 * hall check: what was submitted, delivered and confirmed, and which list begins
 * which. That these statements hold of every run is proved (docs/agreement.md); if
 * one does not hold here, the tool and the library differ.
 */
#include "tool.h"

#include <inttypes.h>
#include <string.h>

/* A check that is being written. */
struct check {
    FILE *out;
    const struct lists *lists;
    int broken; /* whether a statement does not hold */
};

/* -- The lists side by side ---------------------------------------------- */

static void put_cell(const struct list *list, size_t place, char words[MAX_WORDS])
{
    words[0] = '\0';
    if (place < list->length) {
        entry_words(&list->entries[place], words);
    }
}

/* How wide a column of entries is. */
static int column_width(const struct list *list, const char *title)
{
    size_t width = strlen(title);
    for (size_t i = 0; i < list->length; i++) {
        char words[MAX_WORDS];
        entry_words(&list->entries[i], words);
        width = strlen(words) > width ? strlen(words) : width;
    }
    return (int)width;
}

static size_t longest(size_t one, size_t other)
{
    return one > other ? one : other;
}

static void print_lists(const struct check *check, uint32_t r)
{
    const struct list *submitted = &check->lists->submitted[r - 1];
    const struct list *delivered = &check->lists->delivered[r - 1];
    const struct list *confirmed = &check->lists->confirmed[r - 1];
    int first = column_width(submitted, "submitted"), second = column_width(delivered, "delivered");
    size_t rows = longest(submitted->length, longest(delivered->length, confirmed->length));
    fprintf(check->out, "recorder %" PRIu32 ", highest primary %" PRIu32 "\n", r, check->lists->highest[r - 1]);
    fprintf(check->out, "  place  %-*s  %-*s  confirmed\n", first, "submitted", second, "delivered");
    for (size_t i = 0; i < rows; i++) {
        char s[MAX_WORDS], d[MAX_WORDS], c[MAX_WORDS];
        put_cell(submitted, i, s);
        put_cell(delivered, i, d);
        put_cell(confirmed, i, c);
        if (c[0] != '\0') {
            fprintf(check->out, "  %5zu  %-*s  %-*s  %s\n", i + 1, first, s, second, d, c);
        } else if (d[0] != '\0') {
            fprintf(check->out, "  %5zu  %-*s  %s\n", i + 1, first, s, d);
        } else {
            fprintf(check->out, "  %5zu  %s\n", i + 1, s);
        }
    }
}

/* -- Which begins which -------------------------------------------------- */

/* Says that two lists part, and where. */
static void print_parting(struct check *check, const char *one_name, uint32_t r, const struct list *one,
                          const char *other_name, uint32_t q, const struct list *other)
{
    char first[MAX_WORDS], second[MAX_WORDS];
    size_t place = list_agrees(one, other);
    put_cell(one, place, first);
    put_cell(other, place, second);
    fprintf(check->out,
            "does not hold: %s at %" PRIu32 " and %s at %" PRIu32 " part at place %zu: %s and %s\n", one_name, r,
            other_name, q, place + 1, first[0] ? first : "the end", second[0] ? second : "the end");
    check->broken = 1;
}

/* A line of recorders: `lead` in front of the first, commas between. */
struct row {
    FILE *out;
    size_t count;
};

static void put_recorder(struct row *row, const char *lead, uint32_t r, const char *relation, uint32_t q)
{
    if (row->count++ == 0) {
        fprintf(row->out, "%s at %" PRIu32 " begins %s at %" PRIu32, lead, r, relation, q);
    } else {
        fprintf(row->out, ", %" PRIu32, q);
    }
}

static void end_row(const struct row *row)
{
    if (row->count != 0) {
        putc('\n', row->out);
    }
}

/* Of two delivered lists one begins the other. */
static void check_delivered(struct check *check)
{
    const struct lists *lists = check->lists;
    for (uint32_t r = 1; r <= lists->n; r++) {
        struct row row = {check->out, 0};
        for (uint32_t q = 1; q <= lists->n; q++) {
            if (q != r && list_begins(&lists->delivered[r - 1], &lists->delivered[q - 1])) {
                put_recorder(&row, "delivered", r, "delivered", q);
            }
        }
        end_row(&row);
    }
    for (uint32_t r = 1; r <= lists->n; r++) {
        for (uint32_t q = r + 1; q <= lists->n; q++) {
            const struct list *one = &lists->delivered[r - 1], *other = &lists->delivered[q - 1];
            if (!list_begins(one, other) && !list_begins(other, one)) {
                print_parting(check, "delivered", r, one, "delivered", q, other);
            }
        }
    }
}

/* Each delivered list has the first entries of each sender, in their order. */
static void check_senders(struct check *check)
{
    const struct lists *lists = check->lists;
    for (uint32_t r = 1; r <= lists->n; r++) {
        for (uint32_t sender = 1; sender <= lists->n; sender++) {
            const struct list *all = &lists->delivered[r - 1];
            struct list own = {.length = 0};
            for (size_t i = 0; i < all->length; i++) {
                if (all->entries[i].sender == sender) {
                    own.entries[own.length++] = all->entries[i];
                }
            }
            if (!list_begins(&own, &lists->submitted[sender - 1])) {
                print_parting(check, "delivered of that sender", r, &own, "submitted", sender,
                              &lists->submitted[sender - 1]);
            }
        }
    }
}

/* The confirmed list of a recorder begins the order of every other one whose
 * highest primary is not lower. */
static void check_confirmed(struct check *check)
{
    const struct lists *lists = check->lists;
    for (uint32_t r = 1; r <= lists->n; r++) {
        struct row row = {check->out, 0};
        for (uint32_t q = 1; q <= lists->n; q++) {
            if (q != r && lists->highest[r - 1] <= lists->highest[q - 1] &&
                list_begins(&lists->confirmed[r - 1], &lists->order[q - 1])) {
                put_recorder(&row, "confirmed", r, "the order", q);
            }
        }
        end_row(&row);
        for (uint32_t q = 1; q <= lists->n; q++) {
            if (q != r && lists->highest[r - 1] <= lists->highest[q - 1] &&
                !list_begins(&lists->confirmed[r - 1], &lists->order[q - 1])) {
                print_parting(check, "confirmed", r, &lists->confirmed[r - 1], "the order", q, &lists->order[q - 1]);
            }
        }
    }
}

static enum status check_run(const struct streams *io, const struct run *run)
{
    struct lists lists;
    struct check check = {io->out, &lists, 0};
    uint32_t number = lists_gather(&lists, run, run->count);
    if (number != HALL_OK) {
        return complain_refused(io, run->name, 0, number);
    }
    for (uint32_t r = 1; r <= lists.n; r++) {
        print_lists(&check, r);
    }
    check_delivered(&check);
    check_senders(&check);
    check_confirmed(&check);
    if (lists.unlike != 0) {
        fprintf(io->out, "does not hold: action %zu answers another entry than the page showed\n", lists.unlike);
        check.broken = 1;
    }
    if (!check.broken) {
        fputs("all holds: one common log, each sender's entries in order, confirmed lists begin the orders\n", io->out);
    }
    return check.broken || run->failed ? STATUS_DIFFERS : STATUS_FINE;
}

enum status check_command(const struct streams *io, const struct options *options)
{
    struct run run;
    enum status status = run_read(io, options->words[0], READ_ASKS, &run);
    if (status == STATUS_FINE) {
        status = check_run(io, &run);
    }
    run_free(&run);
    return status;
}
