/*
 * An SVG picture of a run: a lane for each recorder from left to right, its views as
 * bands, messages as arrows from place to receive. What matters is told by form and
 * lightness, so that it prints in grey; the one colour that is more is that of
 * refusals.
 */
#include "draw.h"

#include <inttypes.h>
#include <string.h>

/* Places and sizes, in pixels. */
enum {
    LEFT = 84,    /* room for the names of the lanes */
    TOP = 78,     /* room for the numbers of actions and for views that are formed */
    RIGHT = 44,   /* room for a long number in the last column */
    BOTTOM = 44,  /* room for the key */
    COLUMN = 22,  /* an action */
    LANE = 80,    /* a recorder */
    BAND = 70,    /* its view */
    ABOVE = 46,   /* what of it lies above the line of the lane */
    LEAST = 1000, /* the width of a picture, at least: that of the key */
    NUMBERS = 14, /* where the numbers of actions stand */
    FORMED = 52,  /* where views are formed */
    LETTER = 6    /* a letter of a band's text, at most */
};

static const char style[] =
    "text{font-family:sans-serif;font-size:10px;fill:#222}"
    ".name{font-size:12px}"
    ".number,.place,.value{text-anchor:middle}"
    ".number{fill:#666}"
    ".long{font-size:8px}"
    ".lane{stroke:#999;stroke-dasharray:1 3}"
    ".band{stroke:#888}"
    ".primary{fill:#d4e4f2}"
    ".other{fill:#fff;stroke-dasharray:4 3}"
    ".arrow{fill:none;stroke:#444;marker-end:url(#head)}"
    ".arrow.summary{stroke-dasharray:3 2;stroke:#777}"
    ".mark path,.mark circle,.key path,.key circle{fill:#fff;stroke:#222}"
    ".mark .full,.key .full{fill:#222}"
    ".mark .tick,.key .tick{fill:none;stroke-width:2}"
    ".mark .light,.key .light{fill:none;stroke:#fff;stroke-width:2}"
    ".mark .bar,.key .bar{stroke-width:3}"
    ".mark .cross,.key .cross{fill:none;stroke:#c00;stroke-width:2.5}"
    ".refused text{fill:#c00;font-weight:bold}";

/* -- Places -------------------------------------------------------------- */

/* The right edge of the columns. */
static size_t right_edge(const struct drawing *drawing)
{
    return LEFT + COLUMN * (drawing->to + 1 - drawing->from);
}

/* The middle of an action's column; the edge if it is not shown. */
static size_t column_x(const struct drawing *drawing, size_t action)
{
    if (action < drawing->from) {
        return LEFT;
    }
    return action > drawing->to ? right_edge(drawing) : LEFT + COLUMN * (action - drawing->from) + COLUMN / 2;
}

/* The line of a lane; lane 0 is where views are formed. */
static size_t lane_y(uint32_t lane)
{
    return lane == 0 ? FORMED : TOP + LANE * ((size_t)lane - 1) + ABOVE;
}

static size_t bottom_edge(const struct drawing *drawing)
{
    return TOP + LANE * (size_t)drawing->run->opening.n;
}

static size_t picture_width(const struct drawing *drawing)
{
    size_t width = right_edge(drawing) + RIGHT;
    return width < LEAST ? LEAST : width;
}

/* -- Lanes and bands ----------------------------------------------------- */

static void add_lanes(struct sheet *to, const struct drawing *drawing)
{
    for (uint32_t r = 1; r <= drawing->run->opening.n; r++) {
        sheet_add(to, "<text class=\"name\" x=\"8\" y=\"%zu\">recorder %" PRIu32 "</text>\n", lane_y(r) + 4, r);
        sheet_add(to, "<path class=\"lane\" d=\"M%d %zuH%zu\"/>\n", LEFT, lane_y(r), right_edge(drawing));
    }
}

/* Whether words fit a band of a width, with a letter's room at its left. */
static int fits(const char *words, size_t width)
{
    return LETTER * (strlen(words) + 1) <= width;
}

/* The text of a band: as much as there is room for. */
static void band_words(const struct stay *stay, size_t width, char words[MAX_WORDS])
{
    char set[MAX_WORDS];
    set_words(stay->members, set);
    snprintf(words, MAX_WORDS, "view %" PRIu32 " %.20s", stay->view, set);
    if (!fits(words, width)) {
        snprintf(words, MAX_WORDS, "%" PRIu32, stay->view);
    }
    if (!fits(words, width)) {
        words[0] = '\0';
    }
}

static void add_band(struct sheet *to, const struct drawing *drawing, const struct stay *stay)
{
    char words[MAX_WORDS], set[MAX_WORDS];
    size_t left = column_x(drawing, stay->from), right = column_x(drawing, stay->to);
    size_t top = lane_y(stay->lane) - ABOVE;
    set_words(stay->members, set);
    sheet_add(to, "<g><title>recorder %" PRIu32 " in view %" PRIu32 " %s, margin %" PRId32 "%s</title>", stay->lane,
              stay->view, set, stay->margin, stay->margin > 0 ? ", primary" : "");
    sheet_add(to, "<rect class=\"band %s\" x=\"%zu\" y=\"%zu\" width=\"%zu\" height=\"%d\"/>",
              stay->margin > 0 ? "primary" : "other", left, top, right - left, BAND);
    band_words(stay, right - left, words);
    sheet_add(to, "<text x=\"%zu\" y=\"%zu\">%s</text></g>\n", left + LETTER, top + 11, words);
}

/* The bands that reach into the picture. */
static void add_bands(struct sheet *to, const struct drawing *drawing)
{
    for (size_t i = 0; i < drawing->stay_count; i++) {
        const struct stay *stay = &drawing->stays[i];
        if (stay->from <= drawing->to && stay->to >= drawing->from && stay->to > stay->from) {
            add_band(to, drawing, stay);
        }
    }
}

/* The number of the first action and every fifth one; not the first if the next comes
 * just behind it. */
static void add_numbers(struct sheet *to, const struct drawing *drawing)
{
    for (size_t i = drawing->from; i <= drawing->to; i++) {
        if (i % 5 == 0 || (i == drawing->from && i % 5 != 4)) {
            sheet_add(to, "<text class=\"number\" x=\"%zu\" y=\"%d\">%zu</text>\n", column_x(drawing, i), NUMBERS, i);
        }
    }
}

/* -- Marks --------------------------------------------------------------- */

/* How an accepted action of a kind looks, about its middle. */
struct shape {
    uint32_t kind;
    const char *drawn;
};

static const struct shape shapes[] = {
    {HALL_SUBMIT, "<path d=\"M-4-4h8v8h-8z\"/>"},
    {HALL_LABEL, "<path d=\"M0-5L5 0 0 5-5 0z\"/>"},
    {HALL_SEND_ENTRY, "<path d=\"M-4-5L5 0-4 5z\"/>"},
    {HALL_SEND_SUMMARY, "<path class=\"full\" d=\"M-4-5L5 0-4 5z\"/>"},
    {HALL_FORM, "<path class=\"full\" d=\"M-5-5h10L0 4z\"/>"},
    {HALL_ENTER, "<path class=\"bar\" d=\"M0-9v18\"/>"},
    {HALL_PLACE, "<circle class=\"full\" r=\"4\"/>"},
    {HALL_RECEIVE, "<circle r=\"4\"/>"},
    {HALL_SAFE, "<circle r=\"5\"/><circle class=\"full\" r=\"2\"/>"},
    {HALL_CONFIRM, "<path class=\"tick\" d=\"M-5 0L-1 4 6-5\"/>"},
    {HALL_DELIVER, "<path class=\"full\" d=\"M-7-7h14v14h-14z\"/><path class=\"light\" d=\"M-4 0L-1 3 4-4\"/>"},
};

static const char cross[] = "<path class=\"cross\" d=\"M-5-5L5 5M5-5L-5 5\"/>";

static const char *shape_of(uint32_t kind)
{
    for (size_t i = 0; i < sizeof shapes / sizeof shapes[0]; i++) {
        if (shapes[i].kind == kind) {
            return shapes[i].drawn;
        }
    }
    return cross;
}

/* A number beside a mark: the place below a confirm or a deliver, the value above a
 * submit, the number of a view above its forming. One that is long leans. */
static void add_mark_number(struct sheet *to, const struct event *event)
{
    uint32_t number = event->kind == HALL_SUBMIT ? event->word : event->kind == HALL_FORM ? event->view : event->place;
    int is_above = event->kind == HALL_SUBMIT || event->kind == HALL_FORM;
    if (event->kind != HALL_CONFIRM && event->kind != HALL_DELIVER && !is_above) {
        return;
    }
    if (is_above && number > 999) {
        sheet_add(to, "<text class=\"long\" transform=\"translate(0 -7) rotate(-25)\">%" PRIu32 "</text>", number);
    } else {
        sheet_add(to, "<text class=\"place\" y=\"%d\">%" PRIu32 "</text>", is_above ? -8 : 19, number);
    }
}

/* The line of the trace, which is shown on hovering. */
static void add_title(struct sheet *to, const struct drawing *drawing, size_t action)
{
    const char *line;
    char words[MAX_TRACE];
    int length = trace_line(drawing, action, &line);
    snprintf(words, sizeof words, "%.*s", length, line);
    sheet_add(to, "<title>");
    sheet_add_escaped(to, words);
    sheet_add(to, "</title>");
}

static void add_mark(struct sheet *to, const struct drawing *drawing, size_t action)
{
    const struct event *event = &drawing->events[action];
    sheet_add(to, "<g class=\"mark %s\" transform=\"translate(%zu %zu)\">",
              event->refusal == HALL_OK ? hall_kind_word(event->kind) : "refused", column_x(drawing, action),
              lane_y(event->lane));
    add_title(to, drawing, action);
    if (event->refusal == HALL_OK) {
        sheet_add(to, "%s", shape_of(event->kind));
        add_mark_number(to, event);
    } else {
        sheet_add(to, "%s<text class=\"place\" y=\"19\">%" PRIu32 "</text>", cross, event->refusal);
    }
    sheet_add(to, "</g>\n");
}

static void add_marks(struct sheet *to, const struct drawing *drawing)
{
    for (size_t i = drawing->from; i <= drawing->to; i++) {
        add_mark(to, drawing, i);
    }
}

/* -- Arrows -------------------------------------------------------------- */

/* An arrow from the place of a message to its receive; on its own lane a bow. One
 * that was placed before the picture comes from its left edge. */
static void add_arrow(struct sheet *to, const struct drawing *drawing, size_t action)
{
    const struct event *event = &drawing->events[action];
    uint32_t source = drawing->events[event->placed].lane;
    size_t from_x = column_x(drawing, event->placed), from_y = lane_y(source);
    size_t to_x = column_x(drawing, action), to_y = lane_y(event->lane);
    sheet_add(to, "<g>");
    add_title(to, drawing, action);
    sheet_add(to, "<path class=\"arrow %s\" d=\"M%zu %zu", event->is_summary ? "summary" : "entry", from_x, from_y);
    if (source == event->lane) {
        sheet_add(to, "Q%zu %zu %zu %zu\"/></g>\n", (from_x + to_x) / 2, to_y - BAND / 3, to_x, to_y);
    } else {
        sheet_add(to, "L%zu %zu\"/></g>\n", to_x, to_y);
    }
}

static void add_arrows(struct sheet *to, const struct drawing *drawing)
{
    for (size_t i = drawing->from; i <= drawing->to; i++) {
        const struct event *event = &drawing->events[i];
        if (event->kind == HALL_RECEIVE && event->refusal == HALL_OK) {
            add_arrow(to, drawing, i);
        }
    }
}

/* -- The key ------------------------------------------------------------- */

static void add_key_mark(struct sheet *to, size_t x, size_t y, const char *drawn, const char *word)
{
    sheet_add(to, "<g class=\"key\" transform=\"translate(%zu %zu)\">%s<text x=\"12\" y=\"4\">%s</text></g>\n", x, y,
              drawn, word);
}

static void add_key(struct sheet *to, const struct drawing *drawing)
{
    size_t x = 16, y = bottom_edge(drawing) + BOTTOM / 2;
    for (size_t i = 0; i < sizeof shapes / sizeof shapes[0]; i++) {
        const char *word = hall_kind_word(shapes[i].kind);
        add_key_mark(to, x, y, shapes[i].drawn, word);
        x += 30 + LETTER * strlen(word);
    }
    add_key_mark(to, x, y, cross, "refused");
    x += 30 + LETTER * strlen("refused");
    sheet_add(to, "<rect class=\"band primary\" x=\"%zu\" y=\"%zu\" width=\"18\" height=\"14\"/>", x - 4, y - 7);
    sheet_add(to, "<text x=\"%zu\" y=\"%zu\">primary view</text>\n", x + 20, y + 4);
    x += 40 + LETTER * strlen("primary view");
    sheet_add(to, "<rect class=\"band other\" x=\"%zu\" y=\"%zu\" width=\"18\" height=\"14\"/>", x - 4, y - 7);
    sheet_add(to, "<text x=\"%zu\" y=\"%zu\">other view</text>\n", x + 20, y + 4);
}

/* -- The picture --------------------------------------------------------- */

void draw_svg(struct sheet *to, const struct drawing *drawing)
{
    size_t width = picture_width(drawing), height = bottom_edge(drawing) + BOTTOM;
    sheet_add(to,
              "<svg xmlns=\"http://www.w3.org/2000/svg\" width=\"%zu\" height=\"%zu\" viewBox=\"0 0 %zu %zu\">\n"
              "<title>",
              width, height, width, height);
    sheet_add_escaped(to, drawing->run->name);
    sheet_add(to, ", actions %zu to %zu</title>\n<style>%s</style>\n", drawing->from, drawing->to, style);
    sheet_add(to, "<defs><marker id=\"head\" viewBox=\"0 0 8 8\" refX=\"11\" refY=\"4\" markerWidth=\"7\""
                  " markerHeight=\"7\" orient=\"auto\"><path d=\"M0 0L8 4 0 8z\" fill=\"#444\"/></marker></defs>\n");
    sheet_add(to, "<rect width=\"%zu\" height=\"%zu\" fill=\"#fff\"/>\n", width, height);
    sheet_add(to, "<text class=\"name\" x=\"8\" y=\"%d\">action</text>\n", NUMBERS);
    sheet_add(to, "<text class=\"name\" x=\"8\" y=\"%d\">views</text>\n", FORMED + 4);
    add_numbers(to, drawing);
    add_lanes(to, drawing);
    add_bands(to, drawing);
    add_arrows(to, drawing);
    add_marks(to, drawing);
    add_key(to, drawing);
    sheet_add(to, "</svg>\n");
}
