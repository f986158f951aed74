/*
 * HL3 hall log: words for the numbers of hall.h, for programs that show them to a
 * person. The library does not need this header.
 *
 * A name or a text is never null; it is a constant and stays.
 */
#ifndef HL3_HALL_LOG_HALL_NAMES_H
#define HL3_HALL_LOG_HALL_NAMES_H

#include "hall.h"

#ifdef __cplusplus
extern "C" {
#endif

/* A number with its name. */
struct hall_name {
    uint32_t number;
    const char *name;
};

/* A refusal with its text. The kind is that of the action refused, 0 for all
 * others and for calls that are no action. */
struct hall_reason {
    uint32_t number, kind;
    const char *text;
};

/* A limit of hall.h as text. */
#define HALL_NAMES_QUOTED(limit) #limit
#define HALL_NAMES_TEXT(limit) HALL_NAMES_QUOTED(limit)

/* The name of a number in a table, or the one for all others. */
static inline const char *hall_find_name(const struct hall_name *names, size_t count, uint32_t number,
                                         const char *other)
{
    for (size_t i = 0; i < count; i++) {
        if (names[i].number == number) {
            return names[i].name;
        }
    }
    return other;
}

/* The word of the text form that an action of a kind begins with; `raw` for what
 * is no kind. */
static inline const char *hall_kind_word(uint32_t kind)
{
    static const struct hall_name names[] = {
        {HALL_SUBMIT, "submit"},        {HALL_LABEL, "label"}, {HALL_SEND_ENTRY, "send"},
        {HALL_SEND_SUMMARY, "summary"}, {HALL_FORM, "form"},   {HALL_ENTER, "enter"},
        {HALL_PLACE, "place"},          {HALL_RECEIVE, "receive"}, {HALL_SAFE, "safe"},
        {HALL_CONFIRM, "confirm"},      {HALL_DELIVER, "deliver"},
    };
    return hall_find_name(names, sizeof names / sizeof names[0], kind, "raw");
}

/* The word of the listing that an answer begins with. */
static inline const char *hall_case_word(uint32_t answer_case)
{
    static const struct hall_name names[] = {
        {HALL_CASE_DONE, "ok"},
        {HALL_CASE_ENTRY, "entry"},
        {HALL_CASE_SUMMARY, "summary"},
        {HALL_CASE_FROM, "from"},
    };
    return hall_find_name(names, sizeof names / sizeof names[0], answer_case, "unknown");
}

static inline const char *hall_phase_name(uint32_t phase)
{
    static const struct hall_name names[] = {
        {HALL_PHASE_NORMAL, "normal"},
        {HALL_PHASE_SEND, "send"},
        {HALL_PHASE_COLLECT, "collect"},
    };
    return hall_find_name(names, sizeof names / sizeof names[0], phase, "unknown");
}

/* Why a call was refused. The kind is that of the action, 0 if it was none: an
 * opening, a settle, a step back, a page, a file. */
static inline const char *hall_refusal_text(uint32_t number, uint32_t kind)
{
    static const struct hall_reason reasons[] = {
        {HALL_REFUSED_KIND, 0, "there is no such kind of action"},
        {HALL_REFUSED_RECORDER, 0, "the hall has no such recorder"},
        {HALL_REFUSED_RECORDER, HALL_FORM, "forming a view names no recorder: the second number is 0"},
        {HALL_REFUSED_UNUSED, 0, "a number that this action does not use is not 0"},
        {HALL_REFUSED_VIEW_NUMBER, 0, "0 is not the number of a view"},
        {HALL_REFUSED_SET, 0, "the new view has no member, or one that the hall does not have"},
        {HALL_REFUSED_OPENING, 0,
         "a hall has 1 to " HALL_NAMES_TEXT(HALL_RECORDERS) " recorders, and its founders are among them"},
        {HALL_REFUSED_SHORT, 0, "the memory lent is too short"},
        {HALL_REFUSED_FILE, 0, "the file breaks a rule of run files, or there are too many actions"},
        {HALL_REFUSED_VOTES, 0,
         "votes are 0 to " HALL_NAMES_TEXT(HALL_MAX_VOTE)
         ", 0 for a recorder that the hall does not have, and not 0 for all"},
        {HALL_REFUSED_BYTES, 0, "the memory lent does not hold a hall"},
        {HALL_REFUSED_TOO_MANY, 0, "the hall holds no more of them"},
        {HALL_REFUSED_TOO_MANY, HALL_SUBMIT,
         HALL_NAMES_TEXT(HALL_MAX_ENTRIES) " entries are submitted, and no more are taken"},
        {HALL_REFUSED_TOO_MANY, HALL_FORM,
         HALL_NAMES_TEXT(HALL_MAX_VIEWS) " views are formed, and no more are taken"},
        {HALL_REFUSED_NOT_RISING, 0, "a view with this number or a greater one is formed already"},
        {HALL_REFUSED_NOT_FORMED, 0, "no view with this number is formed"},
        {HALL_REFUSED_NO_MEMBER, 0, "the recorder is not a member of this view"},
        {HALL_REFUSED_NOT_ABOVE, 0, "the recorder is in this view already, or in a later one"},
        {HALL_REFUSED_PHASE, 0, "the recorder is in no group"},
        {HALL_REFUSED_PHASE, HALL_LABEL,
         "the recorder is in no group, or its group has not yet exchanged summaries"},
        {HALL_REFUSED_PHASE, HALL_SEND_ENTRY,
         "the recorder is in no group, or its group has not yet exchanged summaries"},
        {HALL_REFUSED_PHASE, HALL_SEND_SUMMARY, "the recorder is in no group, or its summary is not due"},
        {HALL_REFUSED_NOTHING, 0, "the order ends before this place"},
        {HALL_REFUSED_NOTHING, HALL_LABEL, "no entry waits at the recorder"},
        {HALL_REFUSED_NOTHING, HALL_SEND_ENTRY, "the recorder has no labelled entry to send"},
        {HALL_REFUSED_NOTHING, HALL_PLACE, "no message of the recorder is pending in this view"},
        {HALL_REFUSED_NOTHING, HALL_RECEIVE, "no further message is in the group's queue"},
        {HALL_REFUSED_NOTHING, HALL_SAFE, "no further message is in the group's queue"},
        {HALL_REFUSED_NOTHING, HALL_CONFIRM, "every entry of the recorder's log is confirmed"},
        {HALL_REFUSED_NOTHING, HALL_DELIVER, "every confirmed entry is delivered"},
        {HALL_REFUSED_NOT_YET, 0, "the recorder does not know the entry"},
        {HALL_REFUSED_NOT_YET, HALL_SAFE, "a member of the group has not received the message"},
        {HALL_REFUSED_NOT_YET, HALL_CONFIRM, "the next entry is not yet safe at all members"},
        {HALL_REFUSED_FULL, 0, "there is no room for one of its steps"},
        {HALL_REFUSED_FULL, HALL_LABEL,
         "the recorder has no further label in this view, or its buffer is full"},
        {HALL_REFUSED_FULL, HALL_SEND_ENTRY, "too many messages of the recorder are pending"},
        {HALL_REFUSED_FULL, HALL_SEND_SUMMARY,
         "a summary was sent in this view, or too many messages are pending"},
        {HALL_REFUSED_FULL, HALL_PLACE, "the group's queue is full"},
        {HALL_REFUSED_FULL, HALL_RECEIVE, "the recorder's log is full"},
        {HALL_REFUSED_NOT_PRIMARY, 0, "no view is formed, or the one with the greatest number is not primary"},
        {HALL_REFUSED_UNDO, 0,
         "no action is left to take back: of those accepted up to " HALL_NAMES_TEXT(HALL_MAX_UNDO) " are held"},
    };
    const char *text = "the reason is not known";
    for (size_t i = 0; i < sizeof reasons / sizeof reasons[0]; i++) {
        if (reasons[i].number == number && reasons[i].kind == kind) {
            return reasons[i].text;
        }
        if (reasons[i].number == number && reasons[i].kind == 0) {
            text = reasons[i].text;
        }
    }
    return text;
}

#ifdef __cplusplus
}
#endif

#endif
