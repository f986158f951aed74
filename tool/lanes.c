/*
 * Lanes in text: a column for each recorder, a row for actions that go from left to
 * right.
 */
#include "draw.h"

#include <inttypes.h>
#include <string.h>

/* Bytes of a cell, and of what stands in it behind a word, each with its zero byte. */
enum { MAX_CELL = 48, MAX_DETAIL = 36 };

/* A row that is being filled. */
struct row {
    size_t first, last;                        /* the actions in it, none if last is lower */
    char cells[HALL_RECORDERS + 1][MAX_CELL]; /* of each recorder; 0: over all lanes */
};

/* Lanes that are being written. */
struct lanes {
    FILE *to;
    const struct drawing *drawing;
    int widths[HALL_RECORDERS + 1]; /* of the column of each recorder; 0: of the numbers */
    int is_measuring;               /* whether rows are measured and not written */
};

/* -- Cells --------------------------------------------------------------- */

/* What an accepted action has behind its word, with a blank in front. */
static void detail_words(const struct event *event, char words[MAX_DETAIL])
{
    char set[MAX_WORDS];
    switch (event->kind) {
    case HALL_SUBMIT:
        snprintf(words, MAX_DETAIL, " %" PRIu32, event->word);
        break;
    case HALL_FORM:
        set_words(event->word, set);
        snprintf(words, MAX_DETAIL, " %" PRIu32 " %.20s", event->view, set);
        break;
    case HALL_ENTER:
        snprintf(words, MAX_DETAIL, " %" PRIu32, event->view);
        break;
    case HALL_PLACE:
    case HALL_RECEIVE:
    case HALL_SAFE:
        snprintf(words, MAX_DETAIL, " %" PRIu32 ".%" PRIu32, event->view, event->place);
        break;
    case HALL_CONFIRM:
    case HALL_DELIVER:
        snprintf(words, MAX_DETAIL, " %" PRIu32, event->place);
        break;
    default:
        words[0] = '\0';
    }
}

static void event_words(const struct event *event, char words[MAX_CELL])
{
    char detail[MAX_DETAIL];
    if (event->refusal != HALL_OK) {
        snprintf(detail, sizeof detail, " x%" PRIu32, event->refusal);
    } else {
        detail_words(event, detail);
    }
    snprintf(words, MAX_CELL, "%s%s", hall_kind_word(event->kind), detail);
}

/* How a lane looks after an action: in a primary view, in another one, in none. */
static char lane_mark(const struct stay *stay)
{
    if (!stay) {
        return '.';
    }
    return stay->margin > 0 ? '|' : ':';
}

/* -- Rows ---------------------------------------------------------------- */

/* The numbers of a row's actions. */
static void row_numbers(const struct row *row, char words[MAX_CELL])
{
    words[0] = '\0';
    if (row->first == row->last) {
        snprintf(words, MAX_CELL, "%zu", row->first);
    } else if (row->first < row->last) {
        snprintf(words, MAX_CELL, "%zu-%zu", row->first, row->last);
    }
}

static void widen(int *width, const char *words)
{
    int length = (int)strlen(words);
    *width = length > *width ? length : *width;
}

static void measure_row(struct lanes *lanes, const struct row *row)
{
    char numbers[MAX_CELL];
    row_numbers(row, numbers);
    widen(&lanes->widths[0], numbers);
    for (uint32_t r = 1; r <= lanes->drawing->run->opening.n; r++) {
        widen(&lanes->widths[r], row->cells[r]);
    }
}

/* Ends a line: what stands in front without blanks at its end. */
static void put_line(FILE *to, char *line)
{
    size_t length = strlen(line);
    while (length > 0 && line[length - 1] == ' ') {
        length--;
    }
    fprintf(to, "%.*s\n", (int)length, line);
}

/* A row that goes over all lanes has its words in cell 0. */
static void write_row(const struct lanes *lanes, const struct row *row)
{
    char numbers[MAX_CELL], line[(HALL_RECORDERS + 2) * (MAX_CELL + 4)];
    row_numbers(row, numbers);
    int length = snprintf(line, sizeof line, "%-*s  %s", lanes->widths[0], numbers, row->cells[0]);
    for (uint32_t r = 1; r <= lanes->drawing->run->opening.n && row->cells[0][0] == '\0'; r++) {
        length += snprintf(line + length, sizeof line - (size_t)length, "%c %-*s  ",
                           lane_mark(stay_at(lanes->drawing, r, row->last)), lanes->widths[r], row->cells[r]);
    }
    put_line(lanes->to, line);
}

/* Gives a row away, and begins the next one. */
static void end_row(struct lanes *lanes, struct row *row)
{
    if (row->first <= row->last) {
        if (lanes->is_measuring) {
            measure_row(lanes, row);
        } else {
            write_row(lanes, row);
        }
    }
    size_t next = row->last + 1;
    memset(row, 0, sizeof *row);
    row->first = next;
    row->last = next - 1;
}

/* Whether a row has something at a lane or to its right, or over all lanes. */
static int is_taken(const struct row *row, uint32_t lane)
{
    int taken = row->cells[0][0] != '\0';
    for (uint32_t r = lane; r <= HALL_RECORDERS; r++) {
        taken |= row->cells[r][0] != '\0';
    }
    return taken;
}

/* Takes all actions into rows. Within a row they go from left to right; one of no
 * recorder has a row of its own. */
static void take_rows(struct lanes *lanes)
{
    const struct drawing *drawing = lanes->drawing;
    struct row row = {.first = drawing->from, .last = drawing->from - 1};
    for (size_t i = drawing->from; i <= drawing->to; i++) {
        uint32_t lane = drawing->events[i].lane;
        if (is_taken(&row, lane)) {
            end_row(lanes, &row);
        }
        event_words(&drawing->events[i], row.cells[lane]);
        row.last = i;
    }
    end_row(lanes, &row);
}

/* -- The top ------------------------------------------------------------- */

/* Names and views of the lanes before the first action that is shown. */
static void take_top(const struct lanes *lanes, struct row *names, struct row *views)
{
    const struct drawing *drawing = lanes->drawing;
    memset(names, 0, sizeof *names);
    memset(views, 0, sizeof *views);
    names->last = views->last = drawing->from - 1;
    names->first = views->first = drawing->from;
    for (uint32_t r = 1; r <= drawing->run->opening.n; r++) {
        const struct stay *stay = stay_at(drawing, r, drawing->from - 1);
        snprintf(names->cells[r], MAX_CELL, "recorder %" PRIu32, r);
        if (stay) {
            snprintf(views->cells[r], MAX_CELL, "view %" PRIu32, stay->view);
        } else {
            snprintf(views->cells[r], MAX_CELL, "no view");
        }
    }
}

void draw_lanes(FILE *to, const struct drawing *drawing)
{
    struct lanes lanes = {.to = to, .drawing = drawing, .is_measuring = 1};
    struct row names, views;
    take_top(&lanes, &names, &views);
    measure_row(&lanes, &names);
    measure_row(&lanes, &views);
    take_rows(&lanes);
    lanes.is_measuring = 0;
    write_row(&lanes, &names);
    write_row(&lanes, &views);
    take_rows(&lanes);
}
