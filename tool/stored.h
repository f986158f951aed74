/*
 * The stored form of a hall (docs/stored-form.md), said once: the lists of fields
 * below give the structs, and so all sizes and offsets, and the tables by which
 * fields are named, shown and judged.
 */
#ifndef HL3_TOOL_STORED_H
#define HL3_TOOL_STORED_H

#include "tool.h"

/* What a field holds. */
enum holds {
    HOLDS_NUMBER,
    HOLDS_VIEW,     /* the number of a view, 0 for none */
    HOLDS_FORMED,   /* the number of a formed view, above the one before */
    HOLDS_MEMBERS,  /* a mask of recorders, up to N */
    HOLDS_RECORDER, /* a recorder, up to N */
    HOLDS_SEQUENCE, /* a label's sequence number, 0 just if its view is 0 */
    HOLDS_PHASE,
    HOLDS_FLAG,
    HOLDS_LIST,     /* a length in one byte, then places for entries, a byte each */
    HOLDS_MESSAGES, /* the same of messages */
    HOLDS_QUEUE,    /* a length in one byte, then places for source and message */
    HOLDS_ENTRIES,  /* a set of entries: a byte for each */
    HOLDS_SOURCES   /* a set of recorders: a byte for each */
};

/* Bytes of a list and of a queue. */
#define LIST_BYTES(capacity) (1 + (capacity))
#define QUEUE_BYTES(capacity) (1 + 2 * (capacity))

/* -- The fields of each cell, in the order of their bytes ------------------- */

/* F(cell, member, bytes, what it holds, least, most, name). The range is that of the
 * number, of a place of the list or queue, of a byte of the set; most is the greatest
 * for any N. */

#define SIZE_FIELDS(F)                                                                                                 \
    F(size, n, 1, HOLDS_NUMBER, 1, HALL_RECORDERS, "N")                                                                \
    F(size, formed, 1, HOLDS_NUMBER, 0, HALL_MAX_VIEWS, "number of formed views")

#define VIEW_FIELDS(F)                                                                                                 \
    F(view, number, 4, HOLDS_FORMED, 1, HALL_MAX_VIEW_NUMBER, "number")                                                \
    F(view, members, 1, HOLDS_MEMBERS, 1, (1u << HALL_RECORDERS) - 1, "set")

#define TOTAL_FIELDS(F) F(total, entries, 1, HOLDS_NUMBER, 0, HALL_MAX_ENTRIES, "number of entries")

#define ENTRY_FIELDS(F)                                                                                                \
    F(entry, sender, 1, HOLDS_RECORDER, 1, HALL_RECORDERS, "sender")                                                   \
    F(entry, value, 4, HOLDS_NUMBER, 0, UINT32_MAX, "value")                                                           \
    F(entry, view, 4, HOLDS_VIEW, 0, HALL_MAX_VIEW_NUMBER, "view number of its label")                                 \
    F(entry, seq, 1, HOLDS_SEQUENCE, 0, HALL_MAX_SEQ, "sequence number of its label")

#define RECORDER_FIELDS(F)                                                                                             \
    F(recorder, view, 4, HOLDS_VIEW, 0, HALL_MAX_VIEW_NUMBER, "current view")                                          \
    F(recorder, phase, 1, HOLDS_PHASE, HALL_PHASE_NORMAL, HALL_PHASE_COLLECT, "phase")                                 \
    F(recorder, next, 1, HOLDS_NUMBER, 0, HALL_MAX_SEQ, "next sequence number less 1")                                 \
    F(recorder, buffer, LIST_BYTES(HALL_MAX_BUFFER), HOLDS_LIST, 1, HALL_MAX_ENTRIES, "buffer")                        \
    F(recorder, order, LIST_BYTES(HALL_MAX_ORDER), HOLDS_LIST, 1, HALL_MAX_ENTRIES, "order")                           \
    F(recorder, confirm, 1, HOLDS_NUMBER, 0, HALL_MAX_ORDER, "confirm mark less 1")                                    \
    F(recorder, report, 1, HOLDS_NUMBER, 0, HALL_MAX_ORDER, "report mark less 1")                                      \
    F(recorder, highest, 4, HOLDS_VIEW, 0, HALL_MAX_VIEW_NUMBER, "highest primary")                                    \
    F(recorder, known, HALL_MAX_ENTRIES, HOLDS_ENTRIES, 0, 1, "known entries")                                         \
    F(recorder, safe, HALL_MAX_ENTRIES, HOLDS_ENTRIES, 0, 1, "safe labels")                                            \
    F(recorder, heard, HALL_RECORDERS, HOLDS_SOURCES, 0, 1, "sources heard")                                           \
    F(recorder, safe_sources, HALL_RECORDERS, HOLDS_SOURCES, 0, 1, "sources safe")

/* The fields behind `sent` are those of the summary. */
#define ENDPOINT_FIELDS(F)                                                                                             \
    F(endpoint, pending, LIST_BYTES(HALL_MAX_PENDING), HOLDS_MESSAGES, 0, HALL_MAX_ENTRIES, "pending")                 \
    F(endpoint, receive, 1, HOLDS_NUMBER, 0, HALL_MAX_QUEUE, "receive mark less 1")                                    \
    F(endpoint, safe, 1, HOLDS_NUMBER, 0, HALL_MAX_QUEUE, "safe mark less 1")                                          \
    F(endpoint, sent, 1, HOLDS_FLAG, 0, 1, "summary sent")                                                             \
    F(endpoint, known, HALL_MAX_ENTRIES, HOLDS_ENTRIES, 0, 1, "summary's known entries")                               \
    F(endpoint, order, LIST_BYTES(HALL_MAX_ORDER), HOLDS_LIST, 1, HALL_MAX_ENTRIES, "summary's order")                 \
    F(endpoint, confirm, 1, HOLDS_NUMBER, 0, HALL_MAX_ORDER, "summary's confirm mark less 1")                          \
    F(endpoint, highest, 4, HOLDS_VIEW, 0, HALL_MAX_VIEW_NUMBER, "summary's highest primary")

#define QUEUE_FIELDS(F) F(queue, messages, QUEUE_BYTES(HALL_MAX_QUEUE), HOLDS_QUEUE, 0, HALL_MAX_ENTRIES, "")

#define VOTES_FIELDS(F) F(votes, votes, 4, HOLDS_NUMBER, 0, HALL_MAX_VOTE, "")

#define STORED_MEMBER(cell, member, bytes, ...) uint8_t member[bytes];

struct stored_size { SIZE_FIELDS(STORED_MEMBER) };
struct stored_view { VIEW_FIELDS(STORED_MEMBER) };
struct stored_total { TOTAL_FIELDS(STORED_MEMBER) };
struct stored_entry { ENTRY_FIELDS(STORED_MEMBER) };
struct stored_recorder { RECORDER_FIELDS(STORED_MEMBER) };
struct stored_endpoint { ENDPOINT_FIELDS(STORED_MEMBER) };
struct stored_queue { QUEUE_FIELDS(STORED_MEMBER) };
struct stored_votes { VOTES_FIELDS(STORED_MEMBER) };

/* -- The cells of a hall, in the order of their bytes ------------------------ */

/* How many cells of a part are in use; the others are blank. */
enum used {
    USED_ALL,
    USED_VIEWS,     /* one for each formed view */
    USED_ENTRIES,   /* one for each entry */
    USED_RECORDERS, /* one for each recorder of the hall */
    USED_ENDPOINTS  /* one for each recorder of the hall in each formed view */
};

/* P(part, cell, fields, cells, which are in use, number of the first, name). */
#define STORED_PARTS(P)                                                                                                \
    P(size, size, SIZE_FIELDS, 1, USED_ALL, 0, "")                                                                     \
    P(views, view, VIEW_FIELDS, HALL_MAX_VIEWS, USED_VIEWS, 0, "view at index")                                        \
    P(total, total, TOTAL_FIELDS, 1, USED_ALL, 0, "")                                                                  \
    P(entries, entry, ENTRY_FIELDS, HALL_MAX_ENTRIES, USED_ENTRIES, 1, "entry")                                        \
    P(recorders, recorder, RECORDER_FIELDS, HALL_RECORDERS, USED_RECORDERS, 1, "recorder")                             \
    P(endpoints, endpoint, ENDPOINT_FIELDS, HALL_RECORDERS * HALL_MAX_VIEWS, USED_ENDPOINTS, 1, "recorder")            \
    P(queues, queue, QUEUE_FIELDS, HALL_MAX_VIEWS, USED_VIEWS, 0, "queue at index")                                    \
    P(votes, votes, VOTES_FIELDS, HALL_RECORDERS, USED_RECORDERS, 1, "votes of recorder")

#define STORED_CELLS(part, cell, fields, cells, ...) struct stored_##cell part[cells];

struct stored_hall { STORED_PARTS(STORED_CELLS) };

/* That bytes are a hall of so many, without gaps between the fields. */
typedef char stored_hall_has_hall_length[sizeof(struct stored_hall) == HALL_LENGTH ? 1 : -1];

/* -- The same as tables: stored.c -------------------------------------------- */

struct stored_field {
    size_t at, bytes; /* in the cell */
    enum holds holds;
    uint32_t least, most;
    const char *name; /* empty if the cell has this field alone */
};

struct stored_part {
    size_t at, bytes, cells; /* of the first cell; of one cell; how many */
    enum used used;
    size_t first;     /* number of the first cell */
    const char *name; /* of a cell, its number behind it; empty if there is one cell */
    const struct stored_field *fields;
    size_t field_count;
};

/* Parts by number from 0 on, NULL behind the last. */
const struct stored_part *stored_part(size_t i);

/* Whether a field is a set; a list or a queue. The bytes of a place of a list or
 * queue, and how many places it has. */
int stored_is_set(const struct stored_field *field);
int stored_is_list(const struct stored_field *field);
size_t stored_place_bytes(const struct stored_field *field);
size_t stored_capacity(const struct stored_field *field);

/* A number, or a byte of a list, a queue or a set. */
struct stored_place {
    const struct stored_part *part;
    size_t cell; /* from 0 on */
    const struct stored_field *field;
    size_t item; /* which byte of the field, 0 for a number */
};

struct range {
    uint32_t least, most;
};

/* The place that has a byte of a hall, and where it begins. */
struct stored_place stored_place_at(size_t offset);
size_t stored_offset(const struct stored_place *place);

/* Its value and its range in a hall. */
uint32_t stored_value(const struct stored_hall *hall, const struct stored_place *place);
struct range stored_range(const struct stored_hall *hall, const struct stored_place *place);

/* The names of a cell, of a field with its cell, of a place with its field. */
void stored_cell_words(const struct stored_part *part, size_t cell, char words[MAX_WORDS]);
void stored_field_words(const struct stored_place *place, char words[MAX_WORDS]);
void stored_place_words(const struct stored_place *place, char words[MAX_WORDS]);

/* Whether a cell is in use. */
int stored_is_used(const struct stored_hall *hall, const struct stored_part *part, size_t cell);

/* The first byte that is not zero, NULL if all are. */
const uint8_t *stored_first_set(const uint8_t *at, size_t bytes);

/* -- Readers ----------------------------------------------------------------- */

/* A number of one or four bytes, and that of a member of a cell. */
uint32_t stored_number(const uint8_t *at, size_t bytes);
#define STORED(member) stored_number((member), sizeof(member))

uint32_t stored_n(const struct stored_hall *hall);
uint32_t stored_formed(const struct stored_hall *hall);
uint32_t stored_entries(const struct stored_hall *hall);

/* Whether the hall has entry e and it has a label. */
int stored_is_labelled(const struct stored_hall *hall, uint32_t e);

/* The index of the formed view with a number, HALL_MAX_VIEWS if there is none. */
size_t stored_view_index(const struct stored_hall *hall, uint32_t number);

/* Whether recorder r is a member of the view at an index; of no view nobody is. */
int stored_is_member(const struct stored_hall *hall, size_t index, uint32_t r);

/* Recorder r, and its endpoint in the view at an index. */
const struct stored_recorder *stored_recorder(const struct stored_hall *hall, uint32_t r);
const struct stored_endpoint *stored_endpoint(const struct stored_hall *hall, uint32_t r, size_t index);

/* The source and the message at a place of a queue, places from 1 on. */
uint32_t stored_source(const struct stored_queue *queue, size_t place);
uint32_t stored_message(const struct stored_queue *queue, size_t place);

/* -- Why bytes are no hall: rules.c ------------------------------------------ */

/* A rule of docs/stored-form.md that bytes break. */
struct breach {
    unsigned rule; /* 0: none is broken */
    struct stored_place place;
};

/* The first breach of HALL_LENGTH bytes: in single fields by rising offset, then
 * across fields by rule and offset. */
struct breach find_breach(const struct stored_hall *hall);

/* Rules that are told with a number: the length of a hall, the range of a field. */
enum { RULE_LENGTH = 9, RULE_RANGE = 10 };

/* A rule in a few words; behind those of RULE_RANGE the range is told. */
const char *rule_words(unsigned rule);

#endif
