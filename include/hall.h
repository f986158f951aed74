/*
 * HL3 hall log: open a hall, perform an action, settle the hall, step back,
 * read a recorder's page, check a hall; read, write and list run files, and
 * print and read the lines of a run as text.
 *
 * A hall is HALL_LENGTH bytes that the caller owns and lends to each call;
 * docs/stored-form.md describes them. The library keeps nothing between calls
 * and has no other memory, so a hall may be copied or stored as plain bytes.
 *
 * All calls but hall_version and hall_length return HALL_OK, which is 0, or the
 * number of a refusal (enum hall_refusal). A refused call leaves every lent byte
 * as it was. Where several refusals fit, the first in the order 11, 31, 42, 43,
 * 12 to 16, 41, 32 to 40, 18 is given; 19, of run files alone, comes before 16 in
 * reading and after 41 in writing and printing.
 *
 * A lent slice is a pointer and the number of bytes from there on.
 *  - It may be longer than needed: what lies past the first HALL_LENGTH bytes
 *    of a hall, the first HALL_UNDO_LENGTH bytes of an undo buffer, or the first
 *    HALL_ANSWER_LENGTH bytes of an answer or a page, is neither read nor
 *    written.
 *  - It needs no alignment, but for the words of hall_run_write.
 *  - Its pointer is not null, also where the length is 0.
 *  - The slices lent to one call do not overlap.
 *
 * Threads. Different halls are independent: different threads may use them at
 * the same time. Of one hall, pages may be read by several threads at once, each
 * into a slice of its own, and it may be checked; while a thread opens, steps,
 * settles, steps back or lists into it no other thread uses it, so a caller that
 * shares a hall locks it, and an undo buffer with its hall. The library itself
 * never waits.
 *
 * Platform. The library is built for Linux on x86-64, with the System V calling
 * convention. From outside it needs memcpy, memmove and memset alone. A settle,
 * held or not, a step back and a listing take at most HALL_SETTLE_STACK bytes of
 * stack, any other call at most HALL_STACK, beside what the thread itself needs.
 */
#ifndef HL3_HALL_LOG_HALL_H
#define HL3_HALL_LOG_HALL_H

#include <stddef.h>
#include <stdint.h>

#ifdef __cplusplus
extern "C" {
#endif

/* Version of this interface: major * 1000000 + minor * 1000 + patch. */
#define HALL_VERSION 3008000

/* Bytes of a hall. */
#define HALL_LENGTH 59731

/* HALL_VERSION and HALL_LENGTH of the library that is linked, so that a program
 * built with another header can tell. */
uint32_t hall_version(void);
uint32_t hall_length(void);

/* Bytes of an undo buffer, and how many accepted actions it holds at most. */
#define HALL_UNDO_LENGTH 8337
#define HALL_MAX_UNDO 16

/* Bytes of stack that suffice for any call but a settle, a step back and a
 * listing: none but a step that receives the last summary of an exchange takes
 * 4,096, and that one takes more for each entry still to be ordered. */
#define HALL_STACK 8192

/* Bytes of stack that suffice for a settle, a held settle and a step back, which
 * work on a copy of the hall, and for a listing, which takes its run on a hall of
 * its own first if `text` may be too short. */
#define HALL_SETTLE_STACK 69632

/* Bytes of an answer or a page: HALL_WORDS words of 32 bits, little-endian,
 * each read by hall_word. Words that are not described are 0; they are spare
 * words for later. */
#define HALL_ANSWER_LENGTH 64
#define HALL_WORDS 16

/* A hall has 1 to HALL_RECORDERS recorders, numbered from 1. A set of recorders
 * is a mask with bit k - 1 for recorder k. */
#define HALL_RECORDERS 8

/* Votes of a recorder, at most. A hall keeps the votes it is opened with, one
 * number for each of HALL_RECORDERS recorders: 0 for those it does not have, and
 * not 0 for all. */
#define HALL_MAX_VOTE 1000

/* What a hall holds at most. An action that would pass such a limit is refused
 * with the number given. */
#define HALL_MAX_ENTRIES 64 /* entries ever submitted: 32 */
#define HALL_MAX_VIEWS 32   /* views ever formed, the founders' included: 32 */
#define HALL_MAX_SEQ 64     /* the sequence number of a label, from 1 on: 40 */
#define HALL_MAX_BUFFER 64  /* labelled entries of a recorder not yet sent: 40 */
#define HALL_MAX_ORDER 64   /* entries in the order of a recorder: 40 */
#define HALL_MAX_PENDING 65 /* pending messages of a recorder in a view: 40 */
#define HALL_MAX_QUEUE 72   /* messages in the queue of a view: 40 */

/* Numbers of views run from 1 to this one; 0 is refused with 14. */
#define HALL_MAX_VIEW_NUMBER 4294967295u

/* Steps that a settle takes at most. */
#define HALL_MAX_SETTLE_STEPS 2392

/* Kinds of actions: word k of a step. Each uses the words named here; an unused
 * word is 0. R is the recorder, from 1 on. */
enum hall_kind {
    HALL_SUBMIT = 1,       /* r, a: value a is submitted at R */
    HALL_LABEL = 2,        /* r: R's first waiting entry gets its label */
    HALL_SEND_ENTRY = 3,   /* r: the head of R's buffer is sent in its view */
    HALL_SEND_SUMMARY = 4, /* r: R sends its summary in its view */
    HALL_FORM = 5,         /* a, b: view number a is formed with set b */
    HALL_ENTER = 6,        /* r, a: R enters view a */
    HALL_PLACE = 7,        /* r, a: R's first pending message of view a joins its queue */
    HALL_RECEIVE = 8,      /* r: R receives the next message of its view */
    HALL_SAFE = 9,         /* r: R gets notice that all members received the next one */
    HALL_CONFIRM = 10,     /* r: the entry at R's confirm mark is confirmed */
    HALL_DELIVER = 11      /* r: the entry at R's report mark is delivered */
};

/* The answer of a step: word 0 says which case, the words after it are those
 * of the case. */
enum hall_case {
    HALL_CASE_DONE = 0,    /* no further word */
    HALL_CASE_ENTRY = 1,   /* HALL_ENTRY_...: kinds 8 and 9 */
    HALL_CASE_SUMMARY = 2, /* HALL_SUMMARY_...: kinds 8 and 9 */
    HALL_CASE_FROM = 3     /* HALL_FROM_...: kind 11 */
};

/* Words of a step's answer. */
enum hall_answer_word {
    HALL_ANSWER_CASE = 0,

    /* A received or safe entry: source of the message, label, value. */
    HALL_ENTRY_SOURCE = 1,
    HALL_ENTRY_VIEW = 2,
    HALL_ENTRY_SEQ = 3,
    HALL_ENTRY_SENDER = 4,
    HALL_ENTRY_VALUE = 5,

    /* A received or safe summary, as it was sent. */
    HALL_SUMMARY_SOURCE = 1,
    HALL_SUMMARY_KNOWN = 2,   /* how many entries it knows */
    HALL_SUMMARY_ORDER = 3,   /* length of its order */
    HALL_SUMMARY_CONFIRM = 4, /* its confirm mark */
    HALL_SUMMARY_HIGHEST = 5, /* its highest primary */

    /* A delivered entry. */
    HALL_FROM_SENDER = 1,
    HALL_FROM_VALUE = 2
};

/* Words of a settle's answer, held or not. */
enum hall_settle_word {
    HALL_SETTLE_COUNT = 0 /* how many steps it took */
};

/* Words of a page. */
enum hall_page_word {
    HALL_PAGE_VIEW = 0,          /* number of the current view, 0 for none */
    HALL_PAGE_SET = 1,           /* its set, 0 for none */
    HALL_PAGE_PHASE = 2,         /* enum hall_phase */
    HALL_PAGE_MARGIN = 3,        /* twice the votes of its set less the votes of the hall, above 0
                                    if the view is primary; without a view that of the empty set;
                                    from -8,000 to 8,000, read by hall_signed */
    HALL_PAGE_HIGHEST = 4,       /* highest primary, 0 for none */
    HALL_PAGE_ORDER_LENGTH = 5,  /* entries in the order, the common log */
    HALL_PAGE_BUFFER_LENGTH = 6, /* labelled entries not yet sent */
    HALL_PAGE_CONFIRM = 7,       /* confirm mark: the first confirm - 1 places are confirmed */
    HALL_PAGE_REPORT = 8,        /* report mark: the first report - 1 places are delivered */
    HALL_PAGE_LABEL_VIEW = 9,    /* label and value at the asked place, 0 for place 0 */
    HALL_PAGE_LABEL_SEQ = 10,
    HALL_PAGE_LABEL_SENDER = 11,
    HALL_PAGE_VALUE = 12
};

enum hall_phase {
    HALL_PHASE_NORMAL = 0,
    HALL_PHASE_SEND = 1,
    HALL_PHASE_COLLECT = 2
};

/* What a call returns: HALL_OK or a refusal. */
enum hall_refusal {
    HALL_OK = 0,

    /* Because of the input. */
    HALL_REFUSED_KIND = 11,        /* k is not 1 to 11 */
    HALL_REFUSED_RECORDER = 12,    /* r is not 1 to N where used, or not 0 where unused */
    HALL_REFUSED_UNUSED = 13,      /* an unused a or b is not 0 */
    HALL_REFUSED_VIEW_NUMBER = 14, /* a view number is 0 */
    HALL_REFUSED_SET = 15,         /* a new view's set is empty or names a recorder above N */
    HALL_REFUSED_OPENING = 16,     /* N is not 1 to 8, or founders above N */
    HALL_REFUSED_SHORT = 18,       /* the slice to write into is too short; given last */
    HALL_REFUSED_FILE = 19,        /* the file breaks a rule of run files, or too many actions */
    HALL_REFUSED_VOTES = 41,       /* a vote above HALL_MAX_VOTE, a vote other than 0 for a
                                      recorder above N, or all votes 0; given directly after 16 */

    /* Because of the state. */
    HALL_REFUSED_BYTES = 31,      /* the bytes are no hall's stored form, or too few */
    HALL_REFUSED_TOO_MANY = 32,   /* a 65th entry or a 33rd view */
    HALL_REFUSED_NOT_RISING = 33, /* a new view's number does not exceed all formed ones */
    HALL_REFUSED_NOT_FORMED = 34, /* the view is not formed */
    HALL_REFUSED_NO_MEMBER = 35,  /* the recorder is not a member of the view */
    HALL_REFUSED_NOT_ABOVE = 36,  /* the view is not above the current one */
    HALL_REFUSED_PHASE = 37,      /* no current view, or the phase does not allow it */
    HALL_REFUSED_NOTHING = 38,    /* nothing waits, no message is at the mark, the order ends
                                     before the mark or place, or report has reached confirm */
    HALL_REFUSED_NOT_YET = 39,    /* a member has not received it, the label is not safe, or the
                                     entry is not known */
    HALL_REFUSED_FULL = 40,       /* a list, the sequence number or the summary's place is full,
                                     or the new label exists already */
    HALL_REFUSED_NOT_PRIMARY = 42, /* settling: no view is formed, or the one with the greatest
                                      number is not primary; given directly after 31 */
    HALL_REFUSED_UNDO = 43         /* the undo buffer is too short or not in its form; stepping
                                      back: none is held, or the newest action held does not lead
                                      from the hall it would restore to the present one; given
                                      directly after 31 and 42 */
};

/*
 * Opens a hall of n recorders in the first HALL_LENGTH bytes of `hall`, with
 * the set `founders` as view 1: a mask with bit k - 1 for recorder k, for the
 * whole hall (1u << n) - 1; 0 means recorder 1 alone. v1 to v8 are the votes of
 * recorders 1 to 8. What these bytes held before does not matter.
 *
 * Returns HALL_OK; 16; 41; or 18 if hall_len is below HALL_LENGTH.
 */
uint32_t hall_open(uint8_t *hall, size_t hall_len, uint32_t n, uint32_t founders, uint32_t v1,
                   uint32_t v2, uint32_t v3, uint32_t v4, uint32_t v5, uint32_t v6, uint32_t v7,
                   uint32_t v8);

/* The same with the votes in a row, recorder 1 first. */
static inline uint32_t hall_open_row(uint8_t *hall, size_t hall_len, uint32_t n, uint32_t founders,
                                     const uint32_t votes[HALL_RECORDERS])
{
    return hall_open(hall, hall_len, n, founders, votes[0], votes[1], votes[2], votes[3], votes[4],
                     votes[5], votes[6], votes[7]);
}

/* The same with the built-in row: 2 votes for recorder 1, 1 for each other one
 * up to n. */
static inline uint32_t hall_open_built_in(uint8_t *hall, size_t hall_len, uint32_t n,
                                          uint32_t founders)
{
    return hall_open(hall, hall_len, n, founders, 2, n >= 2, n >= 3, n >= 4, n >= 5, n >= 6, n >= 7,
                     n >= 8);
}

/*
 * Performs the action k, r, a, b and writes its answer into the first
 * HALL_ANSWER_LENGTH bytes of `answer`.
 *
 * Returns HALL_OK; 11; 31, also if hall_len is below HALL_LENGTH; 12 to 15; 32
 * to 40; or 18 if the action is allowed and answer_len is below
 * HALL_ANSWER_LENGTH.
 */
uint32_t hall_step(uint8_t *hall, size_t hall_len, uint32_t k, uint32_t r, uint32_t a, uint32_t b,
                   uint8_t *answer, size_t answer_len);

/*
 * Settles the hall: takes all steps that complete the log in the view with the
 * greatest number, and writes their count into the first HALL_ANSWER_LENGTH
 * bytes of `answer`. At each turn it takes the first action that is not refused,
 * in the order of kinds 6, 4, 3, 2, 7, 8, 9, 10, 11, under each kind the members
 * of the view from the lowest on, and only in that view; it ends when none is
 * left. The hall is then the one after these steps, and a second settle takes
 * none. A 40 that comes before an allowed action, or where none is allowed,
 * refuses the settle as a whole: the steps before it are not kept either.
 *
 * On a hall reached from opening 40 never comes, and every entry submitted at a
 * member of the view is then delivered at all members.
 *
 * Returns HALL_OK; 31, also if hall_len is below HALL_LENGTH; 42; 40; or 18 if
 * the hall can be settled and answer_len is below HALL_ANSWER_LENGTH.
 */
uint32_t hall_settle(uint8_t *hall, size_t hall_len, uint8_t *answer, size_t answer_len);

/*
 * Steps back. An undo buffer is HALL_UNDO_LENGTH bytes that the caller owns and
 * lends beside the hall; docs/undo-buffer.md describes them. Empty it is all
 * zeros, and its first byte is the number of actions held. Lent at every step
 * and settle it holds the newest HALL_MAX_UNDO accepted actions: one more pushes
 * out the oldest, a refused one leaves no trace, and a settle is held as the
 * actions of its run. hall_step_back takes the newest one back; it goes into the
 * middle of a settle, one action at a time.
 *
 *  - Opening holds nothing and knows no buffer. Who opens a hall anew clears the
 *    buffer with zeros.
 *  - A run that begins with an empty buffer and lends it at every step and settle
 *    counts, after steps back, as the run of the accepted actions that remain. A
 *    step back is then refused only where none is held.
 *  - What else writes the hall, a hall_step as well, is a foreign write. The hall
 *    that a step back would restore is always the present one with two parts of
 *    it put back, those that the newest action held has written. If that action
 *    does not lead from there to the present hall, 43 says so, and it stays held.
 *    If it does, the step back is taken; but the hall no longer counts as reached
 *    from opening.
 */

/*
 * Performs the action k, r, a, b as hall_step does, and holds it in `undo`. It
 * makes no copy of the hall.
 *
 * Returns HALL_OK; 11; 31, also if hall_len is below HALL_LENGTH; 43 if undo_len
 * is below HALL_UNDO_LENGTH or the buffer is not in its form; 12 to 15; 32 to 40;
 * or 18 if the action is allowed and answer_len is below HALL_ANSWER_LENGTH.
 */
uint32_t hall_step_held(uint8_t *hall, size_t hall_len, uint8_t *undo, size_t undo_len, uint32_t k,
                        uint32_t r, uint32_t a, uint32_t b, uint8_t *answer, size_t answer_len);

/*
 * Settles the hall as hall_settle does, and holds each action of its run in
 * `undo`, so that of a longer run the newest HALL_MAX_UNDO stay. A settle of no
 * steps leaves no trace there.
 *
 * Returns HALL_OK; 31, also if hall_len is below HALL_LENGTH; 42; 43 if undo_len
 * is below HALL_UNDO_LENGTH or the buffer is not in its form; 40; or 18 if the
 * hall can be settled and answer_len is below HALL_ANSWER_LENGTH.
 */
uint32_t hall_settle_held(uint8_t *hall, size_t hall_len, uint8_t *undo, size_t undo_len,
                          uint8_t *answer, size_t answer_len);

/*
 * Takes the newest action held in `undo` back: the hall is the one before it, and
 * the action is no longer held. An action that was pushed out is gone.
 *
 * Returns HALL_OK; 31, also if hall_len is below HALL_LENGTH; or 43 if undo_len
 * is below HALL_UNDO_LENGTH, if the buffer is not in its form, if none is held,
 * or if the present hall with the action's two parts put back is no hall, refuses
 * the action, or is led by it to other bytes than the present ones.
 */
uint32_t hall_step_back(uint8_t *hall, size_t hall_len, uint8_t *undo, size_t undo_len);

/*
 * Writes the page of recorder r into the first HALL_ANSWER_LENGTH bytes of
 * `page`, with the label and value at a place of its order, counted from 1.
 * Place 0 asks for none.
 *
 * Returns HALL_OK; 31, also if hall_len is below HALL_LENGTH; 12; 38 for a place
 * outside the order; or 18 if page_len is below HALL_ANSWER_LENGTH.
 */
uint32_t hall_page(const uint8_t *hall, size_t hall_len, uint32_t r, uint32_t place, uint8_t *page,
                   size_t page_len);

/*
 * 31 alone: whether the first HALL_LENGTH bytes of `hall` are a hall's stored
 * form.
 *
 * Returns HALL_OK; or 31, also if hall_len is below HALL_LENGTH.
 */
uint32_t hall_check(const uint8_t *hall, size_t hall_len);

/* Word i of an answer or a page, i from 0 to HALL_WORDS - 1. */
static inline uint32_t hall_word(const uint8_t *words, size_t i)
{
    const uint8_t *word = words + 4 * i;
    return (uint32_t)word[0] | (uint32_t)word[1] << 8 | (uint32_t)word[2] << 16 |
           (uint32_t)word[3] << 24;
}

/* The same word as a signed number, which it holds in two's complement. */
static inline int32_t hall_signed(const uint8_t *words, size_t i)
{
    uint32_t word = hall_word(words, i);
    return word >> 31 ? -1 - (int32_t)~word : (int32_t)word;
}

/*
 * Run files: an opening, and the actions of a run (docs/run-files.md). A settle
 * has no place of its own there: it stands as its steps.
 *
 * A run file is bytes that the caller owns and lends. The four calls keep to
 * what is said of all calls above; an answer is again words in a slice of at
 * least HALL_ANSWER_LENGTH bytes. An offset into a file is two words, the low
 * one first, read by hall_offset.
 */

/* Bytes and actions of a run file, at most; fewer actions with votes. */
#define HALL_MAX_FILE 65536
#define HALL_MAX_ACTIONS 4094
#define HALL_MAX_ACTIONS_WITH_VOTES 4092

/* Bytes of the opening block, of an action and of the trailer. A run of c
 * actions has HALL_RUN_BLOCK * (c + 2) bytes, one with votes
 * HALL_RUN_BLOCK * (c + 4). */
#define HALL_RUN_BLOCK 16

/* Words of the opening of a run file. */
enum hall_run_word {
    HALL_RUN_SIZE = 0,       /* N, the number of recorders */
    HALL_RUN_FOUNDERS = 1,   /* the founders as written, 0 for recorder 1 alone */
    HALL_RUN_START = 2,      /* offset of the first action */
    HALL_RUN_START_HIGH = 3, /* its high word */
    HALL_RUN_COUNT = 4,      /* how many actions there are */
    HALL_RUN_THIRD = 5,      /* third word of the opening block: 1 if votes are given, 0 for the
                                built-in row */
    HALL_RUN_VOTES = 6       /* words 6 to 13: the votes of recorders 1 to 8, 0 if none are given */
};

/* Words of an action of a run file. At the end all but the first are 0. */
enum hall_action_word {
    HALL_ACTION_END = 0, /* 0 for an action, 1 for the end */
    HALL_ACTION_K = 1,   /* the words of a step */
    HALL_ACTION_R = 2,
    HALL_ACTION_A = 3,
    HALL_ACTION_B = 4,
    HALL_ACTION_NEXT = 5,     /* offset after the action */
    HALL_ACTION_NEXT_HIGH = 6 /* its high word */
};

/* Words of a written run. */
enum hall_written_word {
    HALL_WRITTEN_LENGTH = 0 /* how many bytes it has */
};

/*
 * Reads the opening of a run file. A hall is opened by it with hall_open_built_in
 * if word HALL_RUN_THIRD is 0, else with the votes.
 *
 * Returns HALL_OK; 19; 16; 41; or 18 if words_len is below HALL_ANSWER_LENGTH.
 */
uint32_t hall_run_read(const uint8_t *file, size_t file_len, uint8_t *words, size_t words_len);

/*
 * Reads the action at an offset of a file, and the offset after it; or the
 * end, where less than an action and the trailer is left. From HALL_RUN_START
 * on, each time at HALL_ACTION_NEXT, the actions of a run come in turn. Any
 * offset may be asked for, in any bytes.
 *
 * Returns HALL_OK; or 18 if words_len is below HALL_ANSWER_LENGTH.
 */
uint32_t hall_run_action(const uint8_t *file, size_t file_len, size_t at, uint8_t *words,
                         size_t words_len);

/*
 * Writes a run of n recorders and the set `founders` at the start of `file`,
 * bytes after it stay. With `third` 1 it has the votes v1 to v8; with 0 it has
 * the built-in row, and v1 to v8 are not looked at. `actions` is actions_len
 * words (not bytes), aligned as uint32_t is: k, r, a, b of each action in turn.
 * What is left of less than four words is no action. The words of an action may
 * be any.
 *
 * Returns HALL_OK; 16; 41 with `third` 1; 19 for a `third` above 1, or more than
 * HALL_MAX_ACTIONS actions, with votes HALL_MAX_ACTIONS_WITH_VOTES; or 18 if
 * file_len is below the run's length or words_len below HALL_ANSWER_LENGTH.
 */
uint32_t hall_run_write(uint8_t *file, size_t file_len, uint32_t n, uint32_t founders,
                        uint32_t third, uint32_t v1, uint32_t v2, uint32_t v3, uint32_t v4,
                        uint32_t v5, uint32_t v6, uint32_t v7, uint32_t v8, const uint32_t *actions,
                        size_t actions_len, uint8_t *words, size_t words_len);

/* The same with votes in a row, recorder 1 first. */
static inline uint32_t hall_run_write_row(uint8_t *file, size_t file_len, uint32_t n,
                                          uint32_t founders, const uint32_t votes[HALL_RECORDERS],
                                          const uint32_t *actions, size_t actions_len,
                                          uint8_t *words, size_t words_len)
{
    return hall_run_write(file, file_len, n, founders, 1, votes[0], votes[1], votes[2], votes[3],
                          votes[4], votes[5], votes[6], votes[7], actions, actions_len, words,
                          words_len);
}

/* The same with the built-in row. */
static inline uint32_t hall_run_write_built_in(uint8_t *file, size_t file_len, uint32_t n,
                                               uint32_t founders, const uint32_t *actions,
                                               size_t actions_len, uint8_t *words, size_t words_len)
{
    return hall_run_write(file, file_len, n, founders, 0, 0, 0, 0, 0, 0, 0, 0, 0, actions,
                          actions_len, words, words_len);
}

/* The offset whose low word is word i. */
static inline size_t hall_offset(const uint8_t *words, size_t i)
{
    return (size_t)((uint64_t)hall_word(words, i + 1) << 32 | hall_word(words, i));
}

/* Bytes of a line of a listing, at most, and of any listing. For a run of c
 * actions HALL_LISTING_LINE * (c + 2) suffice. */
#define HALL_LISTING_LINE 85
#define HALL_MAX_LISTING 348160

/* Words of a listing. */
enum hall_listing_word {
    HALL_LISTING_LENGTH = 0 /* how many bytes it has */
};

/*
 * Writes the listing of a run file (docs/listing.md) at the start of `text`,
 * bytes after it stay, its length into `words`, and the run's last hall into the
 * first HALL_LENGTH bytes of `hall`. A file that is refused (19, 16, 41) has a
 * listing too, of one line; it leaves the hall alone and asks nothing of its
 * length.
 *
 * Returns HALL_OK; or 18 if text_len is below the listing's length, words_len
 * below HALL_ANSWER_LENGTH or, for a file that is taken, hall_len below
 * HALL_LENGTH.
 */
uint32_t hall_run_list(const uint8_t *file, size_t file_len, uint8_t *hall, size_t hall_len,
                       uint8_t *text, size_t text_len, uint8_t *words, size_t words_len);

/*
 * Text form of a run (docs/text-form.md): an opening or an action a line, such as
 * `hall 3 founders {1,2}`, `submit 2 101`, `form 4 {1,3}`. Every run file has one
 * text, and what is printed reads back.
 */

/* Bytes that suffice for a printed line. */
#define HALL_MAX_LINE 160

/* Words of a printed line. */
enum hall_text_word {
    HALL_TEXT_LENGTH = 0 /* how many bytes it has, its byte 10 among them */
};

/* What a line says. */
enum hall_line_case {
    HALL_LINE_BLANK = 0,   /* nothing: it is empty, or has blanks or a remark alone */
    HALL_LINE_OPENING = 1, /* an opening: HALL_LINE_SIZE and on */
    HALL_LINE_ACTION = 2,  /* an action: HALL_LINE_K and on */
    HALL_LINE_WRONG = 3    /* it is no line of the text form: HALL_LINE_FIRST */
};

/* The word that a wrong line begins with: a kind (enum hall_kind) or one of these. */
enum hall_first_word {
    HALL_FIRST_NONE = 0, /* no word that begins a line */
    HALL_FIRST_RAW = 254,
    HALL_FIRST_HALL = 255
};

/* Words of a line that is read. */
enum hall_line_word {
    HALL_LINE_CASE = 0,
    HALL_LINE_NEXT = 1,      /* offset after the line and its byte 10 */
    HALL_LINE_NEXT_HIGH = 2, /* its high word */

    /* An opening. */
    HALL_LINE_SIZE = 3,     /* N, the number of recorders */
    HALL_LINE_FOUNDERS = 4, /* the founders word, 0 for recorder 1 alone */
    HALL_LINE_THIRD = 5,    /* 1 if votes are given, 0 for the built-in row */
    HALL_LINE_VOTES = 6,    /* words 6 to 13: the votes of recorders 1 to 8, 0 if none are given */

    /* An action: the words of a step. */
    HALL_LINE_K = 3,
    HALL_LINE_R = 4,
    HALL_LINE_A = 5,
    HALL_LINE_B = 6,

    /* A wrong line. */
    HALL_LINE_FIRST = 3 /* enum hall_first_word, or a kind */
};

/*
 * Prints the line of an opening at the start of `text`, bytes after it stay, and
 * its length into `words`. With `third` 1 it has the votes v1 to v8; with 0 these
 * are not looked at.
 *
 * Returns HALL_OK; 16; 41; 19 if third is above 1; or 18 if text_len is below the
 * line's length or words_len below HALL_ANSWER_LENGTH.
 */
uint32_t hall_print_opening(uint32_t n, uint32_t founders, uint32_t third, uint32_t v1, uint32_t v2,
                            uint32_t v3, uint32_t v4, uint32_t v5, uint32_t v6, uint32_t v7,
                            uint32_t v8, uint8_t *text, size_t text_len, uint8_t *words,
                            size_t words_len);

/*
 * Prints the line of an action in the same way: that of its kind if the words
 * that the kind does not use are 0 and a set is one of recorders 1 to 8, else
 * `raw` and the four words.
 *
 * Returns HALL_OK; or 18 if text_len is below the line's length or words_len
 * below HALL_ANSWER_LENGTH.
 */
uint32_t hall_print_action(uint32_t k, uint32_t r, uint32_t a, uint32_t b, uint8_t *text,
                           size_t text_len, uint8_t *words, size_t words_len);

/*
 * Reads the line at an offset of a text, up to its byte 10 or the text's end, and
 * the offset after it. At the text's end and past it there is a blank line of no
 * length. Only the form of a line is judged: N, founders and votes are for
 * hall_open or hall_run_write to refuse, the words of an action for hall_step.
 * Any offset may be asked for, in any bytes.
 *
 * Returns HALL_OK; or 18 if words_len is below HALL_ANSWER_LENGTH.
 */
uint32_t hall_parse_line(const uint8_t *text, size_t text_len, size_t at, uint8_t *words,
                         size_t words_len);

#ifdef __cplusplus
}
#endif

#endif
