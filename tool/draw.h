/*
 * A run as lanes: what draw.c, sheet.c, lanes.c and svg.c share.
 */
#ifndef HL3_TOOL_DRAW_H
#define HL3_TOOL_DRAW_H

#include "tool.h"

/* -- Texts that grow: sheet.c ---------------------------------------------- */

struct sheet {
    char *at; /* freed by who began it; NULL if nothing was added */
    size_t length, room;
    int failed; /* whether there was no memory: what came after is not there */
};

/* Adds words. */
#ifdef __GNUC__
__attribute__((format(printf, 2, 3)))
#endif
void sheet_add(struct sheet *sheet, const char *words, ...);

/* Adds a text as it stands between the tags of XML. */
void sheet_add_escaped(struct sheet *sheet, const char *text);

/* -- What is drawn of a run: draw.c ---------------------------------------- */

/* An action. What a kind does not have is 0, and so is all but the first four of a
 * refused one. */
struct event {
    uint32_t kind;
    uint32_t lane;    /* the recorder; 0 if the words name none of the hall */
    uint32_t refusal; /* HALL_OK if it was accepted */
    size_t line;      /* where its trace line begins */
    uint32_t view;    /* the view that is formed or entered, or that has the message */
    uint32_t place;   /* of the message in the queue; of the entry that is confirmed or delivered */
    uint32_t word;    /* the value that is submitted, or the set of a view that is formed */
    size_t placed;    /* of a receive: the action that placed the message */
    int is_summary;   /* of a receive: what the message is */
};

/* A recorder in a view. */
struct stay {
    uint32_t lane, view, members;
    int32_t margin;
    size_t from, to; /* the actions that began and ended it: 0 for the opening, one more than there are if none did */
};

struct drawing {
    const struct run *run;
    size_t from, to;      /* the first and the last action to be shown */
    struct event *events; /* of action i at i */
    struct stay stays[HALL_RECORDERS * HALL_MAX_VIEWS];
    size_t stay_count;  /* rising by the action that began them */
    struct sheet lines; /* the trace lines, each closed by a byte 10 */
};

/* The stay of a recorder after an action, NULL if it is in no view. */
const struct stay *stay_at(const struct drawing *drawing, uint32_t lane, size_t action);

/* The line of a trace of an action, without its end: its length. */
int trace_line(const struct drawing *drawing, size_t action, const char **line);

/* -- In text and as a picture ---------------------------------------------- */

/* Writes lanes in text: lanes.c. */
void draw_lanes(FILE *to, const struct drawing *drawing);

/* Writes an SVG picture: svg.c. */
void draw_svg(struct sheet *to, const struct drawing *drawing);

#endif
