/*
 * A text that is being read: what story.c, unfold.c and ask.c share.
 */
#ifndef HL3_TOOL_STORY_H
#define HL3_TOOL_STORY_H

#include "tool.h"

struct view {
    uint32_t number, members;
};

/* What a `=` would ask about. */
enum last {
    LAST_NONE,   /* there is no action above */
    LAST_ACTION, /* the last action of the run */
    LAST_SETTLE, /* a settle without an action, which is noted */
    LAST_TOLD    /* what a prompt has told already: such a settle, or a step back */
};

/* A hall, and the undo buffer that is lent beside it from its opening on. */
struct held {
    uint8_t hall[HALL_LENGTH], undo[HALL_UNDO_LENGTH];
};

/* A text that is being read. */
struct story {
    const struct streams *io;
    enum reading reading;
    struct run *run;
    unsigned long line; /* the present one */
    int is_open;        /* whether the opening was read */
    int is_full;        /* whether there are more actions than a run file holds */
    struct view views[HALL_MAX_VIEWS];
    size_t formed; /* how many views there are, the greatest number last */
    enum last last;
    size_t settle;            /* of LAST_SETTLE: which note it is */
    char answered[MAX_WORDS]; /* its answer, as the listing has it */
    unsigned char accepted[MAX_RUN]; /* for each action of the run, whether it was accepted */
    struct held present;
    uint8_t settled[HALL_LENGTH]; /* the hall after a settle, to compare its steps with */
    struct held settled_held;     /* and with its undo buffer after a held one */
};

/* -- Lines: story.c ---------------------------------------------------------- */

/* Opens the hall of the run's opening. */
enum status open_story(struct story *story);

/* Whether the opening was read; else it says so. */
enum status check_open(const struct story *story);

/* Takes the line of a text at an offset, and moves the offset behind it. */
enum status take_line_at(struct story *story, const struct bytes *text, size_t *at);

/* -- Actions, and words that unfold into them: unfold.c -------------------- */

/* What is known of a hall just opened: view 1. */
void begin_views(struct story *story);

/* The formed view with a number, NULL if there is none. */
const struct view *find_view(const struct story *story, uint32_t number);

/* Takes an action, refused or not. */
void take_action(struct story *story, uint32_t k, uint32_t r, uint32_t a, uint32_t b);

/* One action of a kind for each member of a view, rising. */
void take_all(struct story *story, uint32_t kind, const struct view *view);

/* All that the members of a view do to exchange their summaries. */
void take_exchange(struct story *story, const struct view *view);

/* All that brings a value of a recorder into the queue of its view. */
void take_log(struct story *story, uint32_t r, uint32_t value);

/* The steps that settle the hall, or a note that it is refused; at a prompt also one
 * that no step is left. */
enum status take_settle(struct story *story);

/* The place of the newest accepted action in the run, counted from 1; 0 if there is
 * none. */
size_t newest_accepted(const struct story *story);

/* Takes the newest accepted action back; the refused ones after it go too. HALL_OK, or
 * the number of a refusal. */
uint32_t take_back(struct story *story);

/* -- `=`: ask.c ------------------------------------------------------------ */

/* Whether fields are an answer of the listing. */
int is_answer(const struct field *fields, size_t count);

/* Compares the answer above, if there is one, with what is asked for. */
enum status take_ask(struct story *story, const struct field *fields, size_t count);

#endif
