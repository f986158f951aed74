/*
 * The library's lines of text against second.c, in one process.
 *
 *     lines words        the words of the text form, and what is nearly one
 *     lines generated    300,000 lines of all kinds, right and wrong
 *     lines texts        texts of several lines, by any offset
 *     lines printed      actions and openings, printed and read back
 *     lines slices       slices of any length
 *
 * All that a call returns and leaves is compared, the bytes around a lent slice
 * too. A text that is read ends where memory ends. What is done is the same at each
 * start. The exit status is 0, or 1 if there was a fault.
 */
#define _DEFAULT_SOURCE
#include "second.h"

#include <inttypes.h>
#include <stdio.h>
#include <stdlib.h>
#include <string.h>
#include <sys/mman.h>

static void fail(const char *what)
{
    fprintf(stderr, "lines: %s\n", what);
    exit(2);
}

/* -- Chance -------------------------------------------------------------- */

static uint64_t chance = 88172645463325252u;

/* A number below a bound. */
static uint32_t below(uint32_t bound)
{
    chance ^= chance << 13;
    chance ^= chance >> 7;
    chance ^= chance << 17;
    return (uint32_t)(chance >> 32) % bound;
}

/* True once in so many times. */
static int once_in(uint32_t times)
{
    return below(times) == 0;
}

#define COUNT(array) (sizeof(array) / sizeof(array)[0])
#define ONE_OF(array) ((array)[below(COUNT(array))])

/* -- Texts --------------------------------------------------------------- */

/* A text that is being made; what does not fit is left out. */
struct text {
    uint8_t bytes[4096];
    size_t length;
};

static void begin(struct text *text)
{
    text->length = 0;
}

static void add_byte(struct text *text, uint8_t byte)
{
    if (text->length < sizeof text->bytes) {
        text->bytes[text->length++] = byte;
    }
}

static void add_bytes(struct text *text, const uint8_t *bytes, size_t length)
{
    for (size_t i = 0; i < length; i++) {
        add_byte(text, bytes[i]);
    }
}

static void add(struct text *text, const char *words)
{
    add_bytes(text, (const uint8_t *)words, strlen(words));
}

/* Prints a text to be read by a person. */
static void show(const uint8_t *bytes, size_t length)
{
    for (size_t i = 0; i < length; i++) {
        if (bytes[i] >= ' ' && bytes[i] < 127) {
            putchar(bytes[i]);
        } else {
            printf("\\x%02x", (unsigned)bytes[i]);
        }
    }
    putchar('\n');
}

/* -- Calls of both ------------------------------------------------------- */

enum { PAINT = 0xa5, FRONT = 16, LENT = 240, SLICE = FRONT + LENT };

/* What a call returned, and what it was lent with the bytes around it. */
struct side {
    uint32_t number;
    uint8_t text[SLICE], words[SLICE];
};

struct both {
    struct side library, second;
};

static void paint(struct both *both)
{
    memset(both, PAINT, sizeof *both);
}

static int is_painted(const uint8_t *bytes, size_t length)
{
    size_t i = 0;
    while (i < length && bytes[i] == PAINT) {
        i++;
    }
    return i == length;
}

static uint32_t word_of(const struct side *side, size_t i)
{
    return hall_word(side->words + FRONT, i);
}

static unsigned faults;

static void print_side(const char *who, const struct side *side)
{
    printf("  %s: %" PRIu32 ", words", who, side->number);
    for (size_t i = 0; i < HALL_WORDS; i++) {
        printf(" %" PRIx32, word_of(side, i));
    }
    printf("\n    ");
    show(side->text + FRONT, HALL_MAX_LINE);
}

/* Tells of the first faults. */
static void tell(const char *what, const struct both *both)
{
    if (faults++ < 5) {
        printf("lines: %s\n", what);
        print_side("library", &both->library);
        print_side("second ", &both->second);
    }
}

/* Both sides are the same, and a refused call leaves all bytes. */
static int compare(const char *what, const struct both *both)
{
    const struct side *one = &both->library, *other = &both->second;
    if (one->number != other->number || memcmp(one->text, other->text, SLICE) != 0 ||
        memcmp(one->words, other->words, SLICE) != 0) {
        tell(what, both);
        return 0;
    }
    if (one->number != HALL_OK && !(is_painted(one->text, SLICE) && is_painted(one->words, SLICE))) {
        tell("a refused call leaves other bytes", both);
        return 0;
    }
    return 1;
}

/* -- Reading ------------------------------------------------------------- */

/* The end of memory that can be read. */
static uint8_t *memory_end;

static void fence_memory(void)
{
    size_t half = 65536;
    uint8_t *area = mmap(NULL, 2 * half, PROT_READ | PROT_WRITE, MAP_PRIVATE | MAP_ANONYMOUS, -1, 0);
    if (area == MAP_FAILED || mprotect(area + half, half, PROT_NONE) != 0) {
        fail("no memory");
    }
    memory_end = area + half;
}

/* How many lines of each case there were, by kind or first word: kinds 1 to 11. */
enum { OTHERS = HALL_DELIVER + 1 };
static unsigned long tally[HALL_LINE_WRONG + 1][OTHERS + 1];

static void count_line(const struct side *side)
{
    uint32_t line_case = word_of(side, HALL_LINE_CASE), which = word_of(side, HALL_LINE_FIRST);
    if (line_case <= HALL_LINE_WRONG) {
        tally[line_case][which < OTHERS ? which : OTHERS]++;
    }
}

/* Reads a line of a text at an offset on both sides. The offset after it. */
static size_t read_line(const struct text *text, size_t at, size_t words_len, struct both *both)
{
    uint8_t *copy = memory_end - text->length;
    memcpy(copy, text->bytes, text->length);
    paint(both);
    both->library.number = hall_parse_line(copy, text->length, at, both->library.words + FRONT, words_len);
    both->second.number = second_parse_line(copy, text->length, at, both->second.words + FRONT, words_len);
    if (memcmp(copy, text->bytes, text->length) != 0) {
        tell("the text that is read changes", both);
    }
    if (!compare("a line is read otherwise", both) && faults <= 5) {
        printf("  at %zu of: ", at);
        show(text->bytes, text->length);
    }
    return hall_offset(both->second.words + FRONT, HALL_LINE_NEXT);
}

/* All lines of a text in turn, and the one at its end. */
static void read_lines(const struct text *text)
{
    struct both both;
    size_t at = 0, next = 0;
    do {
        at = next;
        next = read_line(text, at, HALL_ANSWER_LENGTH, &both);
        if (next > at) {
            count_line(&both.library);
        }
    } while (next > at);
    if (at != text->length) {
        tell("the lines do not end with the text", &both);
    }
}

/* -- Words --------------------------------------------------------------- */

/* Lines with every word of the text form. */
static const char *const lines_of_words[] = {
    "submit 1 2",
    "label 1",
    "send 1",
    "summary 1",
    "form 4 {1,3}",
    "enter 1 2",
    "place 1 2",
    "receive 1",
    "safe 1",
    "confirm 1",
    "deliver 1",
    "raw 1 2 3 4",
    "hall 3",
    "hall 3 founders whole",
    "hall 3 founders {1,2}",
    "hall 3 votes 1 2 3 4 5 6 7 8",
    "hall 3 founders whole votes 1 2 3 4 5 6 7 8",
    "hall 3 founders {2} votes 1 2 3 4 5 6 7 8",
};

/* A line up to a place, other bytes, and the rest of it from another place on. */
static void read_changed(const char *line, size_t to, const uint8_t *bytes, size_t count, size_t from)
{
    struct text text;
    begin(&text);
    add_bytes(&text, (const uint8_t *)line, to);
    add_bytes(&text, bytes, count);
    add(&text, line + from);
    read_lines(&text);
}

/* The line cut at each place, with the byte there dropped or doubled, and with any
 * byte in front of it or instead of it. */
static void read_nearly(const char *line)
{
    size_t length = strlen(line);
    for (size_t at = 0; at <= length; at++) {
        size_t after = at < length ? at + 1 : at;
        read_changed(line, at, NULL, 0, length);
        read_changed(line, at, NULL, 0, after);
        read_changed(line, after, NULL, 0, at);
        for (unsigned i = 0; i < 256; i++) {
            const uint8_t byte = (uint8_t)i;
            read_changed(line, at, &byte, 1, at);
            read_changed(line, at, &byte, 1, after);
        }
    }
}

static void test_words(void)
{
    for (size_t i = 0; i < COUNT(lines_of_words); i++) {
        read_nearly(lines_of_words[i]);
    }
}

/* -- Lines by chance ----------------------------------------------------- */

/* What a line takes behind its first word: n for a number, s for a set. */
struct form {
    const char *word, *takes;
};

static const struct form forms[] = {
    {"submit", "nn"}, {"label", "n"},   {"send", "n"}, {"summary", "n"}, {"form", "ns"},   {"enter", "nn"},
    {"place", "nn"},  {"receive", "n"}, {"safe", "n"}, {"confirm", "n"}, {"deliver", "n"}, {"raw", "nnnn"},
};

static const char *const small_numbers[] = {"0", "1", "2", "3", "7", "8", "9", "10", "255", "256", "1000", "1001"};

static const char *const edge_numbers[] = {
    "2147483647", "2147483648", "4294967294", "4294967295", "4294967296", "4294967297", "4294967300", "4300000000",
    "9999999999", "10000000000", "42949672950", "42949672951", "99999999999", "18446744073709551615",
    "18446744073709551616", "18446744073709551617", "99999999999999999999999999", "", "-1", "+1", "1.0", "0x1", "1,",
};

static void add_number(struct text *text)
{
    char digits[16];
    if (once_in(8)) {
        for (uint32_t zeros = below(14); zeros > 0; zeros--) {
            add_byte(text, '0');
        }
    }
    if (once_in(4)) {
        snprintf(digits, sizeof digits, "%" PRIu32, below(UINT32_MAX));
        add(text, digits);
    } else {
        add(text, once_in(12) ? ONE_OF(edge_numbers) : ONE_OF(small_numbers));
    }
}

static const char *const odd_sets[] = {
    "{}",    "{",     "}",      "{1",     "1}",     "{1,}",   "{,1}",  "{,}",     "{1,,2}", "{1, 2}",
    "{ 1}",  "{1 ,2}", "{1,2}}", "{{1}}", "{0}",    "{9}",    "{1,9}", "{12}",    "{1;2}",  "(1,2)",
    "{1}{2}", "{1,1}", "1,2",   "{10}",   "{1,2",   "{01}",   "{1}x",  "{1,2,1}", "[1]",    "{a}",
    "{#1}",  "{1\t}", "{-1}",   "{1,2,}", "whole", "{8,8}", "{1,2,3,4,5,6,7,8}", "{8,7,6,5,4,3,2,1}",
    "{1,2,3,4,5,6,7,8,1}",
};

/* Members in any order, none twice but by chance. */
static void add_set(struct text *text)
{
    uint32_t in = 0;
    if (once_in(5)) {
        add(text, ONE_OF(odd_sets));
        return;
    }
    add_byte(text, '{');
    for (uint32_t members = below(9); members > 0; members--) {
        uint32_t r = below(HALL_RECORDERS);
        if (in >> r & 1 && !once_in(40)) {
            continue;
        }
        if (in != 0) {
            add_byte(text, ',');
        }
        add_byte(text, (uint8_t)('1' + r));
        in |= 1u << r;
    }
    add_byte(text, '}');
}

static const char *const blanks[] = {" ", " ", " ", " ", " ", " ", "  ", "\t", "\r", " \t ", "\r\r ", "\t\t"};

/* Blanks in front of a field; none once in a while. */
static void add_blanks(struct text *text)
{
    if (!once_in(150)) {
        add(text, ONE_OF(blanks));
    }
}

/* A field that a line takes; left out, twice or the other one once in a while. */
static void add_field(struct text *text, char takes)
{
    for (uint32_t times = once_in(60) ? below(3) : 1; times > 0; times--) {
        int is_set = (takes == 's') != once_in(100);
        add_blanks(text);
        if (is_set) {
            add_set(text);
        } else {
            add_number(text);
        }
    }
}

/* A word behind blanks, left out or another one once in a while. */
static void add_word(struct text *text, const char *word)
{
    static const char *const others[] = {"founders", "whole", "votes", "hall", "all", "Founders", "vote", ""};
    add_blanks(text);
    add(text, once_in(60) ? ONE_OF(others) : word);
}

static void add_votes(struct text *text)
{
    add_word(text, "votes");
    for (uint32_t votes = once_in(20) ? below(20) : HALL_RECORDERS; votes > 0; votes--) {
        add_field(text, 'n');
    }
}

static void add_opening(struct text *text)
{
    add(text, "hall");
    add_field(text, 'n');
    if (!once_in(3)) {
        add_word(text, "founders");
        if (once_in(2)) {
            add_word(text, "whole");
        } else {
            add_field(text, 's');
        }
    }
    if (once_in(2)) {
        add_votes(text);
    }
}

static void add_action(struct text *text)
{
    const struct form form = ONE_OF(forms);
    add(text, form.word);
    for (const char *takes = form.takes; *takes != '\0'; takes++) {
        add_field(text, *takes);
    }
}

static const char *const remarks[] = {"#", " # a remark", "#submit 1 2", "\t#\t{1,2} 3", " ## #", "# \r", "#\xff\x80"};

/* A line, all but its last byte 10: right, or nearly so. */
static void add_line(struct text *text)
{
    if (once_in(10)) {
        add_blanks(text);
    }
    switch (below(12)) {
    case 0:
        break;
    case 1:
    case 2:
    case 3:
        add_opening(text);
        break;
    default:
        add_action(text);
    }
    if (once_in(10)) {
        add_blanks(text);
    }
    if (once_in(10)) {
        add(text, ONE_OF(remarks));
    }
}

/* -- Mutations ----------------------------------------------------------- */

static uint8_t any_byte(void)
{
    static const uint8_t bytes[] = {'{', '}', ',', '#', ' ', '\t', '\r', '\n', 0,   '0', '1', '8', '9', '/',
                                    ':', ';', '-', '+', 'a', 'l',  's',  'S',  127, 128, 160, 255, 11,  12};
    return once_in(2) ? ONE_OF(bytes) : (uint8_t)below(256);
}

/* Puts bytes in the place of one: none, one or two. */
static void replace(struct text *text, size_t at, const uint8_t *bytes, size_t count)
{
    uint8_t after[sizeof text->bytes];
    size_t length = text->length - at - 1;
    memcpy(after, text->bytes + at + 1, length);
    text->length = at;
    add_bytes(text, bytes, count);
    add_bytes(text, after, length);
}

/* A byte is changed, dropped, doubled or has another one in front; or the text is
 * cut there. */
static void mutate(struct text *text)
{
    if (text->length == 0) {
        return;
    }
    size_t at = below((uint32_t)text->length);
    const uint8_t here = text->bytes[at], other = any_byte();
    const uint8_t twice[] = {here, here}, both[] = {other, here};
    switch (below(9)) {
    case 0:
        text->length = at;
        break;
    case 1:
    case 2:
        replace(text, at, &here, 0);
        break;
    case 3:
    case 4:
        replace(text, at, twice, 2);
        break;
    case 5:
    case 6:
        replace(text, at, both, 2);
        break;
    default:
        text->bytes[at] = other;
    }
}

/* A line that may be mutated, and its end, which may be missing. */
static void add_any_line(struct text *text)
{
    struct text line;
    begin(&line);
    add_line(&line);
    if (once_in(3)) {
        for (uint32_t times = 1 + below(3); times > 0; times--) {
            mutate(&line);
        }
    }
    add_bytes(text, line.bytes, line.length);
    if (!once_in(5)) {
        add(text, once_in(8) ? "\r\n" : "\n");
    }
}

/* The lines were of all cases: each kind taken and not, openings, blank lines. */
static void test_enough(void)
{
    unsigned long least = tally[HALL_LINE_BLANK][0], taken = 0, wrong = 0;
    for (uint32_t which = 0; which <= OTHERS; which++) {
        unsigned long actions = tally[HALL_LINE_ACTION][which], wrongs = tally[HALL_LINE_WRONG][which];
        least = wrongs < least ? wrongs : least;
        least = which != 0 && actions < least ? actions : least;
        taken += actions;
        wrong += wrongs;
    }
    unsigned long openings = 0;
    for (uint32_t n = 0; n <= OTHERS; n++) {
        openings += tally[HALL_LINE_OPENING][n];
    }
    printf("lines: %lu blank, %lu openings, %lu actions, %lu wrong\n", tally[HALL_LINE_BLANK][0], openings, taken, wrong);
    if (least < 1000 || openings < 10000) {
        printf("lines: too few of a case: %lu\n", least);
        faults++;
    }
}

static void test_generated(void)
{
    for (unsigned i = 0; i < 300000; i++) {
        struct text text;
        begin(&text);
        add_any_line(&text);
        read_lines(&text);
    }
    test_enough();
}

/* -- Texts of several lines ---------------------------------------------- */

/* Offsets at the end of a text and past it. */
static void read_past_end(const struct text *text)
{
    const size_t past[] = {0, 1, 2, 63, 64, 4095, 65536, UINT32_MAX, SIZE_MAX / 2, SIZE_MAX - 65536, SIZE_MAX};
    struct both both;
    for (size_t i = 0; i < COUNT(past); i++) {
        size_t at = past[i] > SIZE_MAX - text->length ? SIZE_MAX : text->length + past[i];
        size_t next = read_line(text, at, HALL_ANSWER_LENGTH, &both);
        if (next != at || word_of(&both.library, HALL_LINE_CASE) != HALL_LINE_BLANK) {
            tell("past the end there is a line", &both);
        }
    }
}

static void test_texts(void)
{
    struct text text;
    struct both both;
    begin(&text);
    read_past_end(&text);
    for (unsigned i = 0; i < 3000; i++) {
        begin(&text);
        for (uint32_t lines = below(12); lines > 0; lines--) {
            add_any_line(&text);
        }
        read_lines(&text);
        read_past_end(&text);
        for (size_t at = 0; at < text.length; at++) {
            read_line(&text, at, HALL_ANSWER_LENGTH, &both);
        }
    }
}

/* -- Printing ------------------------------------------------------------ */

/* The words of an opening: N, founders, third, votes. */
enum { N, FOUNDERS, THIRD, VOTES, OPENING_WORDS = VOTES + HALL_RECORDERS };

static void print_opening(const uint32_t *opening, size_t text_len, size_t words_len, struct both *both)
{
    const uint32_t *v = opening + VOTES;
    paint(both);
    both->library.number =
        hall_print_opening(opening[N], opening[FOUNDERS], opening[THIRD], v[0], v[1], v[2], v[3], v[4], v[5], v[6], v[7],
                           both->library.text + FRONT, text_len, both->library.words + FRONT, words_len);
    both->second.number =
        second_print_opening(opening[N], opening[FOUNDERS], opening[THIRD], v, both->second.text + FRONT, text_len,
                             both->second.words + FRONT, words_len);
    compare("an opening is printed otherwise", both);
}

static void print_action(const uint32_t *action, size_t text_len, size_t words_len, struct both *both)
{
    paint(both);
    both->library.number = hall_print_action(action[0], action[1], action[2], action[3], both->library.text + FRONT,
                                             text_len, both->library.words + FRONT, words_len);
    both->second.number =
        second_print_action(action, both->second.text + FRONT, text_len, both->second.words + FRONT, words_len);
    compare("an action is printed otherwise", both);
}

/* What was printed reads back as these words. */
static void read_back(const struct both *printed, uint32_t line_case, const uint32_t *wanted, size_t count)
{
    struct text text;
    struct both both;
    uint32_t length = word_of(&printed->library, HALL_TEXT_LENGTH);
    if (length > HALL_MAX_LINE) {
        tell("a line is too long", printed);
        return;
    }
    begin(&text);
    add_bytes(&text, printed->library.text + FRONT, length);
    int same = read_line(&text, 0, HALL_ANSWER_LENGTH, &both) == length &&
               word_of(&both.library, HALL_LINE_CASE) == line_case;
    for (size_t i = 0; i + HALL_LINE_K < HALL_WORDS; i++) {
        same = same && word_of(&both.library, HALL_LINE_K + i) == (i < count ? wanted[i] : 0);
    }
    if (!same) {
        tell("a printed line reads as something else", &both);
    }
}

/* How often openings were taken, and refused with 16, 41 and 19. */
static unsigned long taken, refused[HALL_REFUSED_VOTES + 1];

static void test_opening(const uint32_t *opening)
{
    struct both both;
    print_opening(opening, LENT, HALL_ANSWER_LENGTH, &both);
    if (both.library.number == HALL_OK) {
        read_back(&both, HALL_LINE_OPENING, opening, opening[THIRD] == 1 ? OPENING_WORDS : VOTES);
        taken++;
    } else if (both.library.number <= HALL_REFUSED_VOTES) {
        refused[both.library.number]++;
    }
}

static void test_action(uint32_t k, uint32_t r, uint32_t a, uint32_t b)
{
    const uint32_t action[] = {k, r, a, b};
    struct both both;
    print_action(action, LENT, HALL_ANSWER_LENGTH, &both);
    if (both.library.number != HALL_OK) {
        tell("an action is not printed", &both);
    }
    read_back(&both, HALL_LINE_ACTION, action, 4);
}

static const uint32_t edges[] = {
    0,    1,    2,    7,     8,     9,     10,     11,        12,         99,         100,         254,         255,        256,
    999,  1000, 1001, 9999,  65535, 65536, 99999,  100000,    999999999,  1000000000, 2147483647,  2147483648u, 4294967294u,
    4294967295u,
};

static uint32_t any_word(void)
{
    return once_in(3) ? below(UINT32_MAX) : ONE_OF(edges);
}

/* A word that is mostly 0. */
static uint32_t mostly_none(void)
{
    return once_in(4) ? any_word() : 0;
}

/* Votes for recorders 1 to n, mostly ones that a hall may have. */
static void choose_votes(uint32_t n, uint32_t *votes)
{
    for (uint32_t i = 0; i < HALL_RECORDERS; i++) {
        votes[i] = i < n && !once_in(3) ? below(HALL_MAX_VOTE + 1) : 0;
        if (once_in(60)) {
            votes[i] = any_word();
        }
    }
}

static void test_any_opening(void)
{
    uint32_t opening[OPENING_WORDS];
    opening[N] = once_in(10) ? any_word() : 1 + below(HALL_RECORDERS);
    opening[FOUNDERS] = once_in(10) ? any_word() : below(256) >> below(8);
    opening[THIRD] = once_in(10) ? any_word() : below(2);
    choose_votes(opening[N], opening + VOTES);
    test_opening(opening);
}

/* All sets, of new views and of founders, and one bit more. */
static void test_sets(void)
{
    for (uint32_t set = 0; set < 600; set++) {
        test_action(HALL_FORM, 0, 4, set);
        for (uint32_t n = 0; n <= HALL_RECORDERS + 1; n++) {
            for (uint32_t third = 0; third <= 2; third++) {
                const uint32_t opening[OPENING_WORDS] = {n, set, third, 1000};
                test_opening(opening);
            }
        }
    }
}

static void test_printed(void)
{
    test_sets();
    for (unsigned i = 0; i < 50000; i++) {
        test_action(once_in(10) ? any_word() : below(13), mostly_none(), mostly_none(), mostly_none());
        test_action(below(12), any_word(), any_word(), once_in(2) ? below(256) : 0);
        test_any_opening();
    }
    printf("lines: %lu openings taken, %lu refused 16, %lu 41, %lu 19\n", taken, refused[HALL_REFUSED_OPENING],
           refused[HALL_REFUSED_VOTES], refused[HALL_REFUSED_FILE]);
    if (taken < 1000 || refused[HALL_REFUSED_OPENING] < 1000 || refused[HALL_REFUSED_VOTES] < 1000 ||
        refused[HALL_REFUSED_FILE] < 1000) {
        printf("lines: too few of a case\n");
        faults++;
    }
}

/* -- Slices -------------------------------------------------------------- */

/* A line and its number, taken with slices of these lengths: 18 is given last. */
static void test_lengths(const struct both *both, uint32_t number, size_t length, size_t text_len, size_t words_len)
{
    int is_short = text_len < length || words_len < HALL_ANSWER_LENGTH;
    if (both->library.number != (number == HALL_OK && is_short ? HALL_REFUSED_SHORT : number)) {
        tell("18 does not fit the lengths", both);
    }
}

static void test_opening_slices(const uint32_t *opening)
{
    struct both both;
    print_opening(opening, LENT, HALL_ANSWER_LENGTH, &both);
    uint32_t number = both.library.number, length = number == HALL_OK ? word_of(&both.library, HALL_TEXT_LENGTH) : 0;
    for (size_t text_len = 0; text_len <= length + 2; text_len++) {
        for (size_t words_len = 0; words_len <= HALL_ANSWER_LENGTH + 2; words_len++) {
            print_opening(opening, text_len, words_len, &both);
            test_lengths(&both, number, length, text_len, words_len);
        }
    }
}

static void test_action_slices(const uint32_t *action)
{
    struct both both;
    print_action(action, LENT, HALL_ANSWER_LENGTH, &both);
    size_t length = word_of(&both.library, HALL_TEXT_LENGTH);
    for (size_t text_len = 0; text_len <= length + 2; text_len++) {
        for (size_t words_len = 0; words_len <= HALL_ANSWER_LENGTH + 2; words_len++) {
            print_action(action, text_len, words_len, &both);
            test_lengths(&both, HALL_OK, length, text_len, words_len);
        }
    }
}

static void test_line_slices(const char *line)
{
    struct text text;
    struct both both;
    begin(&text);
    add(&text, line);
    for (size_t words_len = 0; words_len <= LENT; words_len++) {
        read_line(&text, 0, words_len, &both);
        test_lengths(&both, HALL_OK, 0, 0, words_len);
        read_line(&text, text.length + 1, words_len, &both);
        test_lengths(&both, HALL_OK, 0, 0, words_len);
    }
}

static void test_slices(void)
{
    static const uint32_t openings[][OPENING_WORDS] = {
        {8, 127, 1, 1000, 1000, 1000, 1000, 1000, 1000, 1000, 1000},
        {3}, {3, 7}, {3, 5}, {1, 1, 1, 1},                   /* taken */
        {0}, {9, 1, 1}, {3, 8, 2},                           /* 16 */
        {3, 7, 1}, {3, 7, 1, 1001}, {3, 7, 1, 1, 0, 0, 1},   /* 41 */
        {3, 7, 2}, {3, 7, 4294967295u, 1001},                /* 19 */
    };
    static const char *const lines[] = {"", "# a remark", "hall 3 founders {1,2}\n", "submit 2 101", "submit 2", "?\n"};
    for (size_t i = 0; i < COUNT(openings); i++) {
        test_opening_slices(openings[i]);
    }
    for (uint32_t k = 0; k <= HALL_DELIVER + 1; k++) {
        const uint32_t plain[] = {k, k == HALL_FORM ? 0 : 1, k == HALL_FORM ? 4 : 0, k == HALL_FORM ? 255 : 0};
        const uint32_t raw[] = {k, UINT32_MAX, UINT32_MAX, UINT32_MAX};
        test_action_slices(plain);
        test_action_slices(raw);
    }
    for (size_t i = 0; i < COUNT(lines); i++) {
        test_line_slices(lines[i]);
    }
}

/* -- The tests ----------------------------------------------------------- */

struct test {
    const char *name;
    void (*run)(void);
};

static const struct test tests[] = {
    {"words", test_words},     {"generated", test_generated}, {"texts", test_texts},
    {"printed", test_printed}, {"slices", test_slices},
};

int main(int argc, char **argv)
{
    fence_memory();
    for (size_t i = 0; i < COUNT(tests) && argc == 2; i++) {
        if (strcmp(argv[1], tests[i].name) == 0) {
            tests[i].run();
            if (faults != 0) {
                printf("lines: %u faults\n", faults);
            }
            return faults != 0;
        }
    }
    fail("usage: lines words|generated|texts|printed|slices");
}
