/*
 * hall draw: what is drawn of a run. Messages are followed by counting: the k-th
 * accepted place of a view is place k of its queue, and the k-th accepted receive
 * of a member there takes it. That the source of each is the one which the library
 * answers is checked.
 */
#include "draw.h"

#include <inttypes.h>
#include <stdlib.h>
#include <string.h>

/* The messages of a view: the action that placed each. */
struct queue {
    uint32_t view;
    uint32_t length;
    size_t placed[HALL_MAX_QUEUE];
};

/* A drawing that is being gathered. */
struct gathering {
    struct drawing *drawing;
    struct walk walk;
    struct queue queues[HALL_MAX_VIEWS];
    size_t queue_count;
    struct stay *stay[HALL_RECORDERS + 1];    /* the present one of each recorder, NULL for none */
    uint32_t received[HALL_RECORDERS + 1];    /* messages received in it */
    uint32_t noticed[HALL_RECORDERS + 1];     /* and those that are safe */
    size_t unlike; /* the first receive whose source is not that of the message followed, or 0 */
};

/* -- Views --------------------------------------------------------------- */

static struct queue *find_queue(struct gathering *gathering, uint32_t view)
{
    for (size_t i = 0; i < gathering->queue_count; i++) {
        if (gathering->queues[i].view == view) {
            return &gathering->queues[i];
        }
    }
    return NULL;
}

static void add_queue(struct gathering *gathering, uint32_t view)
{
    if (gathering->queue_count < HALL_MAX_VIEWS && !find_queue(gathering, view)) {
        gathering->queues[gathering->queue_count++] = (struct queue){.view = view};
    }
}

/* Begins the stay of a recorder in its current view, if it has one, and ends the one
 * before. */
static void begin_stay(struct gathering *gathering, uint32_t r)
{
    struct drawing *drawing = gathering->drawing;
    uint8_t page[HALL_ANSWER_LENGTH];
    if (hall_page(gathering->walk.hall, HALL_LENGTH, r, 0, page, sizeof page) != HALL_OK ||
        hall_word(page, HALL_PAGE_VIEW) == 0 ||
        drawing->stay_count == sizeof drawing->stays / sizeof drawing->stays[0]) {
        return;
    }
    if (gathering->stay[r]) {
        gathering->stay[r]->to = gathering->walk.done;
    }
    struct stay *stay = &drawing->stays[drawing->stay_count++];
    *stay = (struct stay){r,
                          hall_word(page, HALL_PAGE_VIEW),
                          hall_word(page, HALL_PAGE_SET),
                          hall_signed(page, HALL_PAGE_MARGIN),
                          gathering->walk.done,
                          drawing->run->count + 1};
    gathering->stay[r] = stay;
    gathering->received[r] = 0;
    gathering->noticed[r] = 0;
    add_queue(gathering, stay->view);
}

const struct stay *stay_at(const struct drawing *drawing, uint32_t lane, size_t action)
{
    for (size_t i = drawing->stay_count; i-- > 0;) {
        const struct stay *stay = &drawing->stays[i];
        if (stay->lane == lane && stay->from <= action && action < stay->to) {
            return stay;
        }
    }
    return NULL;
}

/* -- Messages ------------------------------------------------------------ */

static void take_place(struct gathering *gathering, struct event *event)
{
    struct queue *queue = find_queue(gathering, event->view);
    if (queue && queue->length < HALL_MAX_QUEUE) {
        queue->placed[queue->length++] = gathering->walk.done;
        event->place = queue->length;
    }
}

/* The source of the message that a receive answers. */
static uint32_t answered_source(const struct gathering *gathering)
{
    const uint8_t *answer = gathering->walk.answer;
    int is_summary = hall_word(answer, HALL_ANSWER_CASE) == HALL_CASE_SUMMARY;
    return hall_word(answer, is_summary ? HALL_SUMMARY_SOURCE : HALL_ENTRY_SOURCE);
}

static void take_receive(struct gathering *gathering, struct event *event)
{
    const struct stay *stay = gathering->stay[event->lane];
    const struct queue *queue = stay ? find_queue(gathering, stay->view) : NULL;
    event->view = stay ? stay->view : 0;
    event->place = ++gathering->received[event->lane];
    event->is_summary = hall_word(gathering->walk.answer, HALL_ANSWER_CASE) == HALL_CASE_SUMMARY;
    if (queue && event->place <= queue->length) {
        event->placed = queue->placed[event->place - 1];
    }
    if (gathering->unlike == 0 &&
        gathering->drawing->events[event->placed].lane != answered_source(gathering)) {
        gathering->unlike = gathering->walk.done;
    }
}

static void take_safe(struct gathering *gathering, struct event *event)
{
    const struct stay *stay = gathering->stay[event->lane];
    event->view = stay ? stay->view : 0;
    event->place = ++gathering->noticed[event->lane];
}

/* The place of the entry that was just confirmed or delivered. */
static uint32_t newest_place(const struct gathering *gathering, const struct event *event)
{
    uint8_t page[HALL_ANSWER_LENGTH];
    if (hall_page(gathering->walk.hall, HALL_LENGTH, event->lane, 0, page, sizeof page) != HALL_OK) {
        return 0;
    }
    return event->kind == HALL_CONFIRM ? page_confirmed(page) : page_delivered(page);
}

/* -- Actions ------------------------------------------------------------- */

/* What an accepted action shows. */
static void take_effect(struct gathering *gathering, struct event *event, const uint32_t *action)
{
    switch (event->kind) {
    case HALL_SUBMIT:
        event->word = action[A];
        break;
    case HALL_FORM:
        event->view = action[A];
        event->word = action[B];
        add_queue(gathering, action[A]);
        break;
    case HALL_ENTER:
        event->view = action[A];
        begin_stay(gathering, event->lane);
        break;
    case HALL_PLACE:
        event->view = action[A];
        take_place(gathering, event);
        break;
    case HALL_RECEIVE:
        take_receive(gathering, event);
        break;
    case HALL_SAFE:
        take_safe(gathering, event);
        break;
    case HALL_CONFIRM:
    case HALL_DELIVER:
        event->place = newest_place(gathering, event);
        break;
    default:
        break;
    }
}

static void gather_action(struct gathering *gathering)
{
    struct drawing *drawing = gathering->drawing;
    const uint32_t *action = walk_next(&gathering->walk);
    char words[MAX_TRACE];
    walk_trace(&gathering->walk, words);
    struct event *event = &drawing->events[gathering->walk.done];
    event->kind = action[K];
    event->lane = action[R] <= drawing->run->opening.n ? action[R] : 0;
    event->refusal = gathering->walk.number;
    event->line = drawing->lines.length;
    sheet_add(&drawing->lines, "%s\n", words);
    if (event->refusal == HALL_OK) {
        take_effect(gathering, event, action);
    }
}

int trace_line(const struct drawing *drawing, size_t action, const char **line)
{
    *line = drawing->lines.at + drawing->events[action].line;
    return (int)(strchr(*line, '\n') - *line);
}

/* -- The command --------------------------------------------------------- */

/* Goes through the run. */
static enum status gather(const struct streams *io, struct gathering *gathering)
{
    const struct run *run = gathering->drawing->run;
    uint32_t number = walk_open(&gathering->walk, run);
    if (number != HALL_OK) {
        return complain_refused(io, run->name, 0, number);
    }
    for (uint32_t r = 1; r <= run->opening.n; r++) {
        begin_stay(gathering, r);
    }
    while (gathering->walk.done < run->count) {
        gather_action(gathering);
    }
    return gathering->drawing->lines.failed ? complain_memory(io, run->name) : STATUS_FINE;
}

/* Writes the picture if a name is given for it, else lanes in text. */
static enum status write_drawing(const struct streams *io, const struct drawing *drawing, const char *name)
{
    if (!name) {
        draw_lanes(io->out, drawing);
        return STATUS_FINE;
    }
    struct sheet picture = {.at = NULL};
    draw_svg(&picture, drawing);
    enum status status = picture.failed ? complain_memory(io, drawing->run->name)
                                        : write_bytes(io, name, (const uint8_t *)picture.at, picture.length);
    free(picture.at);
    return status;
}

/* Gathers a run and draws it. A message that the library has from another source is
 * told. */
static enum status draw_run(const struct streams *io, struct gathering *gathering, const char *name)
{
    const struct run *run = gathering->drawing->run;
    enum status status = gather(io, gathering);
    if (status == STATUS_FINE) {
        status = write_drawing(io, gathering->drawing, name);
    }
    if (status == STATUS_FINE && gathering->unlike != 0) {
        return complain(io, STATUS_DIFFERS, run->name, 0, "action %zu receives from another recorder than is drawn",
                        gathering->unlike);
    }
    return status == STATUS_FINE && run->failed ? STATUS_DIFFERS : status;
}

/* Draws a run that was read. */
static enum status draw(const struct streams *io, const struct options *options, const struct run *run)
{
    struct drawing *drawing = calloc(1, sizeof *drawing);
    struct gathering *gathering = calloc(1, sizeof *gathering);
    struct event *events = calloc(run->count + 1, sizeof *events);
    enum status status = STATUS_FAILED;
    if (drawing && gathering && events) {
        *drawing = (struct drawing){.run = run,
                                    .from = options->has_from ? options->from : 1,
                                    .to = options->has_to ? options->to : run->count,
                                    .events = events};
        gathering->drawing = drawing;
        status = draw_run(io, gathering, options->output);
        free(drawing->lines.at);
    } else {
        complain_memory(io, run->name);
    }
    free(events);
    free(gathering);
    free(drawing);
    return status;
}

/* Whether the actions to be shown are those of the run, and in order. */
static enum status check_span(const struct streams *io, const struct options *options, const struct run *run)
{
    uint32_t from = options->has_from ? options->from : 1;
    enum status status = options->has_from ? check_count(io, run, "--from", from) : STATUS_FINE;
    if (status == STATUS_FINE && options->has_to) {
        status = check_count(io, run, "--to", options->to);
    }
    if (status == STATUS_FINE && (from == 0 || (options->has_to && options->to < from))) {
        status =
            complain(io, STATUS_USAGE, run->name, 0, "--from and --to are numbers of actions, from 1 on, in order");
    }
    return status;
}

enum status draw_command(const struct streams *io, const struct options *options)
{
    struct run run;
    if (options->output && is_same_file(options->words[0], options->output)) {
        return complain(io, STATUS_USAGE, options->output, 0, "the picture would take the place of the run");
    }
    enum status status = run_read(io, options->words[0], READ_ASKS, &run);
    if (status == STATUS_FINE) {
        status = check_span(io, options, &run);
    }
    if (status == STATUS_FINE) {
        status = draw(io, options, &run);
    }
    run_free(&run);
    return status;
}
