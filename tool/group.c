/* hall group: one row a recorder. */
#include "tool.h"

#include <inttypes.h>
#include <string.h>

enum { COLUMNS = 10 };

struct column {
    const char *title;
    int is_word; /* aligned to the left; numbers to the right */
};

static const struct column columns[COLUMNS] = {
    {"recorder", 0}, {"view", 0},  {"members", 1},   {"margin", 0},    {"primary", 1},
    {"phase", 1},    {"log", 0},   {"confirmed", 0}, {"delivered", 0}, {"waiting", 0},
};

/* The titles and a row for each recorder. */
struct table {
    char cells[HALL_RECORDERS + 1][COLUMNS][24];
    size_t rows;
};

static void put_number(char cell[24], uint32_t number)
{
    snprintf(cell, 24, "%" PRIu32, number);
}

static void put_word(char cell[24], const char *word)
{
    snprintf(cell, 24, "%.23s", word);
}

static void put_row(char row[COLUMNS][24], uint32_t r, const uint8_t *page, uint32_t waiting)
{
    char members[MAX_WORDS];
    uint32_t view = hall_word(page, HALL_PAGE_VIEW);
    int32_t margin = hall_signed(page, HALL_PAGE_MARGIN);
    set_words(hall_word(page, HALL_PAGE_SET), members);
    put_number(row[0], r);
    if (view == 0) {
        put_word(row[1], "none");
    } else {
        put_number(row[1], view);
    }
    put_word(row[2], members);
    snprintf(row[3], 24, "%" PRId32, margin);
    put_word(row[4], margin > 0 ? "yes" : "no");
    put_word(row[5], hall_phase_name(hall_word(page, HALL_PAGE_PHASE)));
    put_number(row[6], hall_word(page, HALL_PAGE_ORDER_LENGTH));
    put_number(row[7], page_confirmed(page));
    put_number(row[8], page_delivered(page));
    put_number(row[9], waiting);
}

static void print_table(FILE *to, const struct table *table)
{
    int widths[COLUMNS] = {0};
    for (size_t row = 0; row < table->rows; row++) {
        for (size_t i = 0; i < COLUMNS; i++) {
            int width = (int)strlen(table->cells[row][i]);
            widths[i] = width > widths[i] ? width : widths[i];
        }
    }
    for (size_t row = 0; row < table->rows; row++) {
        for (size_t i = 0; i < COLUMNS; i++) {
            int width = columns[i].is_word ? -widths[i] : widths[i];
            fprintf(to, "%s%*s", i == 0 ? "" : "  ", width, table->cells[row][i]);
        }
        putc('\n', to);
    }
}

/* Goes through the first actions. Counts what was submitted at each recorder and
 * not labelled. */
static void count_waiting(struct walk *walk, size_t actions, uint32_t waiting[HALL_RECORDERS + 1])
{
    while (walk->done < actions) {
        const uint32_t *action = walk_next(walk);
        walk_step(walk);
        if (walk->number == HALL_OK && action[R] <= HALL_RECORDERS) {
            waiting[action[R]] += action[K] == HALL_SUBMIT;
            waiting[action[R]] -= action[K] == HALL_LABEL;
        }
    }
}

enum status print_group(const struct streams *io, const struct run *run, size_t actions)
{
    struct walk walk;
    struct table table;
    uint32_t waiting[HALL_RECORDERS + 1] = {0};
    uint32_t number = walk_open(&walk, run);
    if (number == HALL_OK) {
        count_waiting(&walk, actions, waiting);
    }
    for (size_t i = 0; i < COLUMNS; i++) {
        put_word(table.cells[0][i], columns[i].title);
    }
    table.rows = 1;
    for (uint32_t r = 1; r <= run->opening.n && r <= HALL_RECORDERS && number == HALL_OK; r++) {
        uint8_t page[HALL_ANSWER_LENGTH];
        number = hall_page(walk.hall, HALL_LENGTH, r, 0, page, sizeof page);
        if (number == HALL_OK) {
            put_row(table.cells[table.rows++], r, page, waiting[r]);
        }
    }
    if (number != HALL_OK) {
        return complain_refused(io, run->name, 0, number);
    }
    print_table(io->out, &table);
    return run->failed ? STATUS_DIFFERS : STATUS_FINE;
}

enum status group_command(const struct streams *io, const struct options *options)
{
    struct run run;
    enum status status = run_read(io, options->words[0], READ_ASKS, &run);
    if (status == STATUS_FINE && options->has_at) {
        status = check_count(io, &run, "--at", options->at);
    }
    if (status == STATUS_FINE) {
        status = print_group(io, &run, options->has_at ? options->at : run.count);
    }
    run_free(&run);
    return status;
}
