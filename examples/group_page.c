/*
 * The group page: a program to start from.
 *
 *     group_page [--record FILE] N FOUNDERS RECORDER [V1 V2 V3 V4 V5 V6 V7 V8] < ACTIONS
 *
 * Opens a hall of N recorders. FOUNDERS is the set of the first view: a mask
 * with bit k - 1 for recorder k, where 0 means recorder 1 alone, or the word
 * `whole` for the whole hall. V1 to V8 are the votes of recorders 1 to 8, 0 above
 * N; without them recorder 1 has 2 votes and each other one 1. Then takes actions
 * from standard input and last shows the group page of RECORDER.
 *
 * A line of the input is one of
 *     K R A B    an action: kind, recorder, two arguments, 0 where unused
 *     settle     settle the hall: all steps that complete the log in the view
 *                with the greatest number; says how many they were
 *     back       take back the last action that was accepted; says which one.
 *                Up to 16 can be taken back, one line for each; of a settle each
 *                step is an action
 *     page R     show the page of recorder R as it is now
 *     # ...      a remark; empty lines are passed over too
 *
 * A refused action, settle or step back changes nothing; the refusal is explained
 * in words. A page shows the margin of the recorder's group: twice its votes less
 * those of the hall, above 0 if the group is primary.
 *
 * With --record, FILE becomes a run file of the opening and all actions given,
 * refused ones too; ./replay FILE lists it. A settle stands there as the actions
 * that it took, a refused one not at all. An action that was taken back does not
 * stand there, nor do the refused ones that came after it: they were refused in a
 * hall that is no more. So FILE ends in the hall shown here. It begins with the
 * opening, and no step back goes behind that. FILE has votes just if they are
 * given here.
 *
 * The exit status is 0, or 1 if a line is not understood, the opening or a page
 * is refused, the input cannot be read, or the output or FILE cannot be
 * written, or 2 if the command line is wrong or there is no memory.
 *
 * Build: cc -Iinclude examples/group_page.c target/staticlib/libcapi.a
 */
#include "hall.h"
#include "hall_names.h"

#include <errno.h>
#include <inttypes.h>
#include <stdio.h>
#include <stdlib.h>
#include <string.h>

/* Longer lines are not understood, remarks apart. */
#define LINE_LENGTH 200

/* A formed view. */
struct view {
    uint32_t number, members;
};

/* A hall, and what was asked of it. */
struct run {
    uint8_t hall[HALL_LENGTH];
    uint8_t undo[HALL_UNDO_LENGTH]; /* lent beside the hall at every step and settle */
    uint32_t n, founders;
    int has_votes; /* whether votes were given; else the row is the built-in one */
    uint32_t votes[HALL_RECORDERS];
    struct view views[HALL_MAX_VIEWS]; /* those formed, the greatest number last */
    size_t formed;                     /* how many there are */
    const char *record;                /* the file to write, NULL for none and no actions kept */
    uint32_t actions[4 * HALL_MAX_ACTIONS]; /* the first of the actions given, but for those taken back */
    unsigned long given;                    /* how many these are */
    unsigned long places[HALL_MAX_UNDO];    /* where those stand that can be taken back, oldest first */
    size_t held;                            /* how many these are */
    uint8_t before[HALL_LENGTH];            /* the hall before a settle: its actions are found there */
    unsigned long unlike;                   /* line of a settle that counts other than these, or 0 */
    uint8_t file[HALL_MAX_FILE];            /* room for the run file */
};

/* -- The page ------------------------------------------------------------ */

static int is_member(uint32_t set, uint32_t r)
{
    return (set >> (r - 1) & 1) != 0;
}

/* The members of a set as "1, 2, 5". */
static void print_set(uint32_t set)
{
    const char *before = "";
    for (uint32_t k = 1; k <= HALL_RECORDERS; k++) {
        if (is_member(set, k)) {
            printf("%s%" PRIu32, before, k);
            before = ", ";
        }
    }
}

static void print_group(const uint8_t *page)
{
    uint32_t view = hall_word(page, HALL_PAGE_VIEW);
    printf("  group            ");
    if (view == 0) {
        printf("none");
    } else {
        print_set(hall_word(page, HALL_PAGE_SET));
        printf(" under number %" PRIu32, view);
    }
    printf(", margin %" PRId32 "\n", hall_signed(page, HALL_PAGE_MARGIN));
}

/* What a phase that is not normal waits for. */
static const char *phase_remark(uint32_t phase)
{
    switch (phase) {
    case HALL_PHASE_SEND:
        return ": its summary is due";
    case HALL_PHASE_COLLECT:
        return ": waiting for summaries";
    default:
        return "";
    }
}

static void print_highest(const uint8_t *page)
{
    uint32_t highest = hall_word(page, HALL_PAGE_HIGHEST);
    printf("  highest primary  ");
    if (highest == 0) {
        puts("none");
    } else {
        printf("%" PRIu32 "\n", highest);
    }
}

/* How far a place of the log has come; marks count from 1. */
static const char *place_state(uint32_t place, uint32_t confirm, uint32_t report)
{
    if (place < report) {
        return "reported";
    }
    return place < confirm ? "confirmed" : "not confirmed";
}

/* One line for each place of the order. HALL_OK, or the number of a refusal. */
static uint32_t print_log(const uint8_t *hall, uint32_t r, uint32_t length)
{
    if (length != 0) {
        puts("\n  place            label       value  state");
    }
    for (uint32_t place = 1; place <= length; place++) {
        uint8_t page[HALL_ANSWER_LENGTH];
        char label[40];
        uint32_t number = hall_page(hall, HALL_LENGTH, r, place, page, sizeof page);
        if (number != HALL_OK) {
            return number;
        }
        snprintf(label, sizeof label, "%" PRIu32 ".%" PRIu32 ".%" PRIu32,
                 hall_word(page, HALL_PAGE_LABEL_VIEW), hall_word(page, HALL_PAGE_LABEL_SEQ),
                 hall_word(page, HALL_PAGE_LABEL_SENDER));
        printf("  %5" PRIu32 "  %15s  %10" PRIu32 "  %s\n", place, label, hall_word(page, HALL_PAGE_VALUE),
               place_state(place, hall_word(page, HALL_PAGE_CONFIRM), hall_word(page, HALL_PAGE_REPORT)));
    }
    return HALL_OK;
}

/* The page of recorder r. HALL_OK, or the number of a refusal. */
static uint32_t print_page(const uint8_t *hall, uint32_t r)
{
    uint8_t page[HALL_ANSWER_LENGTH];
    uint32_t number = hall_page(hall, HALL_LENGTH, r, 0, page, sizeof page);
    if (number != HALL_OK) {
        return number;
    }
    uint32_t length = hall_word(page, HALL_PAGE_ORDER_LENGTH);
    printf("\nRecorder %" PRIu32 "\n", r);
    print_group(page);
    uint32_t phase = hall_word(page, HALL_PAGE_PHASE);
    printf("  phase            %s%s\n", hall_phase_name(phase), phase_remark(phase));
    print_highest(page);
    printf("  to be sent       %" PRIu32 "\n", hall_word(page, HALL_PAGE_BUFFER_LENGTH));
    printf("  common log       length %" PRIu32 ", confirmed %" PRIu32 ", reported %" PRIu32 "\n", length,
           hall_word(page, HALL_PAGE_CONFIRM) - 1, hall_word(page, HALL_PAGE_REPORT) - 1);
    return print_log(hall, r, length);
}

/* Shows a page or says why not. Whether it was shown. */
static int show_page(const uint8_t *hall, uint32_t r)
{
    uint32_t number = print_page(hall, r);
    if (number != HALL_OK) {
        printf("page of recorder %" PRIu32 " refused (%" PRIu32 "): %s\n", r, number, hall_refusal_text(number, 0));
    }
    return number == HALL_OK;
}

/* -- Input --------------------------------------------------------------- */

/* A decimal number of 32 bits at *text, after blanks. Moves *text past it. */
static int take_number(const char **text, uint32_t *number)
{
    const char *at = *text + strspn(*text, " \t");
    uint64_t sum = 0;
    size_t digits = 0;
    for (; at[digits] >= '0' && at[digits] <= '9'; digits++) {
        sum = 10 * sum + (uint64_t)(at[digits] - '0');
        if (sum > UINT32_MAX) {
            return 0;
        }
    }
    *text = at + digits;
    *number = (uint32_t)sum;
    /* The next number, if any, is parted by a blank. */
    return digits != 0 && (**text == '\0' || **text == ' ' || **text == '\t');
}

/* Whether a text is just `count` numbers. */
static int take_numbers(const char *text, uint32_t *numbers, size_t count)
{
    for (size_t i = 0; i < count; i++) {
        if (!take_number(&text, &numbers[i])) {
            return 0;
        }
    }
    return text[strspn(text, " \t")] == '\0';
}

/* A line of the input. */
struct line {
    char text[LINE_LENGTH]; /* without its end; the first bytes of one that is too long */
    int too_long;
    int has_zero; /* a zero byte is among its bytes */
};

/* Reads a line. Whether there was one: a line that a failed read cuts is none. */
static int read_line(struct line *line)
{
    size_t length = 0;
    int c = getchar();
    if (c == EOF) {
        return 0;
    }
    line->too_long = 0;
    line->has_zero = 0;
    for (; c != EOF && c != '\n'; c = getchar()) {
        if (c == '\0') {
            line->has_zero = 1;
        }
        if (length + 1 < LINE_LENGTH) {
            line->text[length++] = (char)c;
        } else {
            line->too_long = 1;
        }
    }
    if (length != 0 && line->text[length - 1] == '\r') {
        length--;
    }
    line->text[length] = '\0';
    return !ferror(stdin);
}

/* -- Actions ------------------------------------------------------------- */

/* Notes the next action of the record as one that can be taken back. */
static void hold_place(struct run *run)
{
    if (run->held == HALL_MAX_UNDO) {
        run->held--;
        memmove(run->places, run->places + 1, run->held * sizeof *run->places);
    }
    run->places[run->held++] = run->given;
}

/* Keeps an action for the record, which was accepted or not. */
static void keep_action(struct run *run, const uint32_t *words, int accepted)
{
    if (!run->record) {
        return;
    }
    if (accepted) {
        hold_place(run);
    }
    if (run->given < HALL_MAX_ACTIONS) {
        memcpy(run->actions + 4 * run->given, words, 4 * sizeof *words);
    }
    run->given++;
}

/* Drops the last accepted action from the record, and what came after it. */
static void drop_action(struct run *run)
{
    if (run->held != 0) {
        run->given = run->places[--run->held];
    }
}

static void print_action(const uint32_t *words)
{
    printf("%" PRIu32 " %" PRIu32 " %" PRIu32 " %" PRIu32, words[0], words[1], words[2], words[3]);
}

/* Takes one action; says why if it is refused. */
static void take_action(struct run *run, const uint32_t *words, unsigned long at)
{
    uint8_t answer[HALL_ANSWER_LENGTH];
    uint32_t number = hall_step_held(run->hall, HALL_LENGTH, run->undo, HALL_UNDO_LENGTH, words[0], words[1],
                                     words[2], words[3], answer, sizeof answer);
    if (number != HALL_OK) {
        printf("line %lu: ", at);
        print_action(words);
        printf(" refused (%" PRIu32 "): %s\n", number, hall_refusal_text(number, words[0]));
    } else if (words[0] == HALL_FORM) {
        run->views[run->formed++] = (struct view){words[2], words[3]};
    }
    keep_action(run, words, number == HALL_OK);
}

/* The order in which a turn of a settle tries the kinds. */
static const uint32_t settle_kinds[] = {
    HALL_ENTER,   HALL_SEND_SUMMARY, HALL_SEND_ENTRY, HALL_LABEL,   HALL_PLACE,
    HALL_RECEIVE, HALL_SAFE,         HALL_CONFIRM,    HALL_DELIVER,
};

enum { SETTLE_KINDS = sizeof settle_kinds / sizeof settle_kinds[0] };

/* Keeps an action of kind k at recorder r if the hall before a settle takes it.
 * Whether it does. */
static int keep_step(struct run *run, uint32_t k, uint32_t r)
{
    const uint32_t view = run->views[run->formed - 1].number;
    const uint32_t words[4] = {k, r, k == HALL_ENTER || k == HALL_PLACE ? view : 0, 0};
    uint8_t answer[HALL_ANSWER_LENGTH];
    if (hall_step(run->before, HALL_LENGTH, words[0], words[1], words[2], words[3], answer, sizeof answer) !=
        HALL_OK) {
        return 0;
    }
    keep_action(run, words, 1);
    return 1;
}

/* Keeps the first action that a turn of a settle finds. Whether there is one. */
static int keep_turn(struct run *run)
{
    const uint32_t members = run->views[run->formed - 1].members;
    for (size_t i = 0; i < SETTLE_KINDS; i++) {
        for (uint32_t r = 1; r <= HALL_RECORDERS; r++) {
            if (is_member(members, r) && keep_step(run, settle_kinds[i], r)) {
                return 1;
            }
        }
    }
    return 0;
}

/* Keeps the actions of a settle for the record. Whether they are as many as the
 * settle has counted. */
static int keep_settle(struct run *run, uint32_t count)
{
    unsigned long given = run->given;
    while (keep_turn(run)) {
    }
    return run->given - given == count;
}

/* Settles the hall; says how many steps that took, or why it is refused. */
static void take_settle(struct run *run, unsigned long at)
{
    uint8_t answer[HALL_ANSWER_LENGTH];
    memcpy(run->before, run->hall, HALL_LENGTH);
    uint32_t number =
        hall_settle_held(run->hall, HALL_LENGTH, run->undo, HALL_UNDO_LENGTH, answer, sizeof answer);
    if (number != HALL_OK) {
        printf("line %lu: settle refused (%" PRIu32 "): %s\n", at, number, hall_refusal_text(number, 0));
        return;
    }
    uint32_t count = hall_word(answer, HALL_SETTLE_COUNT);
    printf("line %lu: settled in %" PRIu32 " step%s\n", at, count, count == 1 ? "" : "s");
    if (run->record && !keep_settle(run, count)) {
        run->unlike = at;
    }
}

/* The words of the action that would be taken back, zeros if none is held: the
 * newest slot of the undo buffer begins with them (docs/undo-buffer.md). */
static void newest_held(const uint8_t *undo, uint32_t *words)
{
    const size_t slot_length = (HALL_UNDO_LENGTH - 1) / HALL_MAX_UNDO;
    for (size_t i = 0; i < 4; i++) {
        words[i] = undo[0] == 0 ? 0 : hall_word(undo + 1 + (undo[0] - 1u) * slot_length, i);
    }
}

/* Takes the last accepted action back; says which one that was, or why it is
 * refused. */
static void take_back(struct run *run, unsigned long at)
{
    uint32_t words[4];
    newest_held(run->undo, words);
    uint32_t number = hall_step_back(run->hall, HALL_LENGTH, run->undo, HALL_UNDO_LENGTH);
    if (number != HALL_OK) {
        printf("line %lu: back refused (%" PRIu32 "): %s\n", at, number, hall_refusal_text(number, 0));
        return;
    }
    printf("line %lu: taken back: ", at);
    print_action(words);
    putchar('\n');
    if (words[0] == HALL_FORM) {
        run->formed--;
    }
    drop_action(run);
}

/* -- Lines --------------------------------------------------------------- */

/* Whether a text is just this word. */
static int is_word(const char *text, const char *word)
{
    size_t length = strlen(word);
    return strncmp(text, word, length) == 0 && take_numbers(text + length, NULL, 0);
}

/* Whether a text is `page` and a recorder. */
static int is_page(const char *text, uint32_t *recorder)
{
    return strncmp(text, "page", 4) == 0 && (text[4] == ' ' || text[4] == '\t') &&
           take_numbers(text + 4, recorder, 1);
}

/* Does what a line asks for. Whether that went well; a refused action, settle or
 * step back does. */
static int take_line(struct run *run, const struct line *line, unsigned long at)
{
    uint32_t words[4];
    const char *text = line->text + strspn(line->text, " \t");
    if (*text == '#') {
        return 1;
    }
    if (line->too_long) {
        printf("line %lu: too long\n", at);
        return 0;
    }
    if (!line->has_zero) {
        if (*text == '\0') {
            return 1;
        }
        if (is_page(text, words)) {
            return show_page(run->hall, words[0]);
        }
        if (is_word(text, "settle")) {
            take_settle(run, at);
            return 1;
        }
        if (is_word(text, "back")) {
            take_back(run, at);
            return 1;
        }
        if (take_numbers(text, words, 4)) {
            take_action(run, words, at);
            return 1;
        }
    }
    printf("line %lu: not understood\n", at);
    return 0;
}

/* Takes all lines. Whether all went well. */
static int take_lines(struct run *run)
{
    struct line line;
    int well = 1;
    for (unsigned long at = 1; read_line(&line); at++) {
        if (!take_line(run, &line, at)) {
            well = 0;
        }
    }
    if (ferror(stdin)) {
        fputs("standard input cannot be read: its rest is not taken\n", stderr);
        well = 0;
    }
    return well;
}

/* -- The record ---------------------------------------------------------- */

/* Writes bytes as a file. Whether that went well. */
static int write_file(const char *path, const uint8_t *bytes, size_t length)
{
    FILE *to = fopen(path, "wb");
    int well = to && fwrite(bytes, 1, length, to) == length;
    if (to && fclose(to) != 0) {
        well = 0;
    }
    if (!well) {
        fprintf(stderr, "%s cannot be written: %s\n", path, strerror(errno));
    }
    return well;
}

/* The run file of a run, in run->file. HALL_OK, or the number of a refusal. */
static uint32_t make_record(struct run *run, uint8_t *words)
{
    if (run->has_votes) {
        return hall_run_write_row(run->file, sizeof run->file, run->n, run->founders, run->votes, run->actions,
                                  4 * run->given, words, HALL_ANSWER_LENGTH);
    }
    return hall_run_write_built_in(run->file, sizeof run->file, run->n, run->founders, run->actions,
                                   4 * run->given, words, HALL_ANSWER_LENGTH);
}

/* Whether the actions are known and fit into a run file; says why not. */
static int can_record(const struct run *run)
{
    unsigned long most = run->has_votes ? HALL_MAX_ACTIONS_WITH_VOTES : HALL_MAX_ACTIONS;
    if (run->unlike != 0) {
        fprintf(stderr, "%s is not written: the settle of line %lu has not as many actions as it counts\n",
                run->record, run->unlike);
        return 0;
    }
    if (run->given > most) {
        fprintf(stderr, "%s is not written: %lu actions were given, and a run file%s has %lu at most\n",
                run->record, run->given, run->has_votes ? " with votes" : "", most);
        return 0;
    }
    return 1;
}

/* Writes a run as a run file. Whether that went well. */
static int write_record(struct run *run)
{
    uint8_t words[HALL_ANSWER_LENGTH];
    if (!can_record(run)) {
        return 0;
    }
    uint32_t number = make_record(run, words);
    if (number != HALL_OK) {
        fprintf(stderr, "%s is not written (%" PRIu32 "): %s\n", run->record, number, hall_refusal_text(number, 0));
        return 0;
    }
    return write_file(run->record, run->file, hall_word(words, HALL_WRITTEN_LENGTH));
}

/* -- The program --------------------------------------------------------- */

/* The set of recorders 1 to n; none if no hall has n of them. */
static uint32_t all_recorders(uint32_t n)
{
    return n <= HALL_RECORDERS ? (1u << n) - 1 : 0;
}

/* Takes the founders of a hall of n: a mask, or the word for the whole hall.
 * Whether that went well. */
static int take_founders(const char *text, uint32_t n, uint32_t *founders)
{
    if (strcmp(text, "whole") == 0) {
        *founders = all_recorders(n);
        return 1;
    }
    return take_numbers(text, founders, 1);
}

/* Opens the hall. HALL_OK, or the number of a refusal. */
static uint32_t open_hall(struct run *run)
{
    if (run->has_votes) {
        return hall_open_row(run->hall, HALL_LENGTH, run->n, run->founders, run->votes);
    }
    return hall_open_built_in(run->hall, HALL_LENGTH, run->n, run->founders);
}

/* The set of view 1 in a hall just opened, as the page of a founder shows it. */
static uint32_t first_members(const struct run *run)
{
    uint8_t page[HALL_ANSWER_LENGTH];
    uint32_t set = 0;
    for (uint32_t r = 1; r <= run->n && set == 0; r++) {
        if (hall_page(run->hall, HALL_LENGTH, r, 0, page, sizeof page) == HALL_OK) {
            set = hall_word(page, HALL_PAGE_SET);
        }
    }
    return set;
}

/* What is known of a hall just opened: nothing can be taken back. */
static void begin(struct run *run)
{
    memset(run->undo, 0, sizeof run->undo);
    run->views[0] = (struct view){1, first_members(run)};
    run->formed = 1;
    run->given = 0;
    run->held = 0;
    run->unlike = 0;
}

/* Opens the hall, takes the input and shows the page. Whether all went well. */
static int perform(struct run *run, uint32_t recorder)
{
    uint32_t number = open_hall(run);
    if (number != HALL_OK) {
        printf("opening refused (%" PRIu32 "): %s\n", number, hall_refusal_text(number, 0));
        return 0;
    }
    begin(run);
    int taken = take_lines(run);
    int shown = show_page(run->hall, recorder);
    int recorded = !run->record || write_record(run);
    return taken && shown && recorded;
}

/* Whether all output was written. */
static int end_output(void)
{
    if (fflush(stdout) == 0 && !ferror(stdout)) {
        return 1;
    }
    fputs("standard output cannot be written\n", stderr);
    return 0;
}

/* Takes all votes, or none where there are no words. Whether that went well. */
static int take_votes(int words, char **texts, struct run *run)
{
    run->has_votes = words != 0;
    if (words != 0 && words != HALL_RECORDERS) {
        return 0;
    }
    for (int i = 0; i < words; i++) {
        if (!take_numbers(texts[i], &run->votes[i], 1)) {
            return 0;
        }
    }
    return 1;
}

/* Takes N, FOUNDERS, RECORDER and the votes. Whether that went well. */
static int take_opening(int words, char **texts, struct run *run, uint32_t *recorder)
{
    return words >= 3 && take_numbers(texts[0], &run->n, 1) && take_founders(texts[1], run->n, &run->founders) &&
           take_numbers(texts[2], recorder, 1) && take_votes(words - 3, texts + 3, run);
}

int main(int argc, char **argv)
{
    uint32_t recorder;
    int status = 2;
    struct run *run = malloc(sizeof *run);
    if (!run) {
        fputs("no memory\n", stderr);
        return status;
    }
    run->record = NULL;
    if (argc >= 3 && strcmp(argv[1], "--record") == 0) {
        run->record = argv[2];
        argv += 2;
        argc -= 2;
    }
    if (take_opening(argc - 1, argv + 1, run, &recorder)) {
        int well = perform(run, recorder);
        status = end_output() && well ? 0 : 1;
    } else {
        fputs("usage: group_page [--record FILE] N FOUNDERS RECORDER [V1 V2 V3 V4 V5 V6 V7 V8] < ACTIONS\n"
              "FOUNDERS is a mask with bit k - 1 for recorder k, or whole for all of them; 0 means recorder 1 alone\n"
              "V1 to V8 are the votes of recorders 1 to 8; without them recorder 1 has 2 and each other one 1\n",
              stderr);
    }
    free(run);
    return status;
}
