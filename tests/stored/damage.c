/*
 * Halls and texts that are damaged, and what the tool says of them.
 *
 *     damage hall FILE                 writes the hall after a run to standard output
 *     damage set HALL OFFSET=BYTE..    the same of a hall with other bytes at some offsets
 *     damage why COUNT                 COUNT damaged halls: `bytes --why` speaks just where the library says 31
 *     damage halls COUNT               COUNT damaged halls and other bytes through `bytes` and `bytes --why`
 *     damage texts COUNT FILE..        COUNT damaged texts through `where`
 *
 * What is done is the same at each start. The exit status is 0, 1 if there was a
 * fault, 2 if something could not be done.
 */
#include "calls.h"
#include "stored.h"

#include <inttypes.h>
#include <stdlib.h>
#include <string.h>

static unsigned long faults;

/* Tells a fault; the first ones are enough. */
static void tell_fault(const char *what, const struct call *call)
{
    if (faults++ < 10) {
        fprintf(stderr, "damage: %s: status %d, says: %s\n", what, call->status, call->err);
    }
}

/* -- Halls that a run reaches -------------------------------------------- */

/* More room than a hall needs. */
struct subject {
    uint64_t chance;
    uint8_t bytes[HALL_LENGTH + 8];
    size_t length;
};

static const struct stored_hall *hall_of(const struct subject *subject)
{
    return (const struct stored_hall *)subject->bytes;
}

static void open_subject(struct subject *subject, uint32_t n)
{
    uint32_t whole = (1u << n) - 1;
    uint32_t founders = below(&subject->chance, 2) == 0 ? whole : 1 + below(&subject->chance, whole);
    if (hall_open_built_in(subject->bytes, sizeof subject->bytes, n, founders) != HALL_OK) {
        fail("no hall");
    }
    subject->length = HALL_LENGTH;
}

/* The number of a formed view, mostly of the last. */
static uint32_t any_view(struct subject *subject)
{
    uint32_t formed = stored_formed(hall_of(subject));
    uint32_t back = below(&subject->chance, 4) == 0 ? below(&subject->chance, formed) : 0;
    return STORED(hall_of(subject)->views[formed - 1 - back].number);
}

/* An action of any kind; new views and settles are rare. */
static void step_subject(struct subject *subject)
{
    uint32_t n = stored_n(hall_of(subject)), r = 1 + below(&subject->chance, n);
    uint32_t k = 1 + below(&subject->chance, HALL_DELIVER);
    uint8_t answer[HALL_ANSWER_LENGTH];
    if (k == HALL_FORM && below(&subject->chance, 4) == 0) {
        uint32_t last = STORED(hall_of(subject)->views[stored_formed(hall_of(subject)) - 1].number);
        hall_step(subject->bytes, HALL_LENGTH, k, 0, last + 1 + below(&subject->chance, 300),
                  1 + below(&subject->chance, (1u << n) - 1), answer, sizeof answer);
    } else if (k == HALL_FORM && below(&subject->chance, 16) == 0) {
        hall_settle(subject->bytes, HALL_LENGTH, answer, sizeof answer);
    } else if (k != HALL_FORM && (k != HALL_SUBMIT || below(&subject->chance, 3) == 0)) {
        uint32_t a = k == HALL_SUBMIT ? below(&subject->chance, 9) : any_view(subject);
        hall_step(subject->bytes, HALL_LENGTH, k, r, k == HALL_SUBMIT || k == HALL_ENTER || k == HALL_PLACE ? a : 0, 0,
                  answer, sizeof answer);
    }
}

/* -- Damage -------------------------------------------------------------- */

/* Mostly a cell that is in use. */
static size_t any_cell(struct subject *subject, const struct stored_part *part)
{
    size_t cell = below(&subject->chance, (uint32_t)part->cells);
    for (uint32_t tries = below(&subject->chance, 8) == 0 ? 0 : 500; tries != 0; tries--) {
        if (stored_is_used(hall_of(subject), part, cell)) {
            break;
        }
        cell = below(&subject->chance, (uint32_t)part->cells);
    }
    return cell;
}

/* A byte of a field, of a list mostly one within its length or just behind. */
static size_t any_item(struct subject *subject, const struct stored_field *field, const uint8_t *at)
{
    if (stored_is_list(field) && below(&subject->chance, 8) != 0) {
        size_t item = below(&subject->chance, (uint32_t)(1 + stored_place_bytes(field) * (at[0] + 1u)));
        return item < field->bytes ? item : 0;
    }
    return below(&subject->chance, (uint32_t)field->bytes);
}

/* Mostly a value in a range, else one just outside or any. */
static uint32_t any_value(struct subject *subject, struct range range)
{
    uint32_t small = range.most - range.least < 1000 ? range.most - range.least + 1 : 10;
    switch (below(&subject->chance, 16)) {
    case 0:
        return range.least - 1;
    case 1:
        return range.most + 1;
    case 2:
        return below(&subject->chance, 256);
    default:
        return range.least + below(&subject->chance, small);
    }
}

static void put_value(uint8_t *at, size_t bytes, uint32_t value)
{
    for (size_t i = 0; i < bytes; i++) {
        at[i] = (uint8_t)(value >> (8 * i));
    }
}

/* Another value at a place of a cell. */
static void damage_place(struct subject *subject, const struct stored_part *part, size_t cell)
{
    const struct stored_field *field = &part->fields[below(&subject->chance, (uint32_t)part->field_count)];
    size_t start = part->at + part->bytes * cell + field->at;
    struct stored_place place = stored_place_at(start + any_item(subject, field, subject->bytes + start));
    put_value(subject->bytes + stored_offset(&place), stored_is_list(field) || stored_is_set(field) ? 1 : field->bytes,
              any_value(subject, stored_range(hall_of(subject), &place)));
}

/* Mostly a part of many cells: another N or number of cells leaves no hall. */
static const struct stored_part *any_part(struct subject *subject)
{
    const struct stored_part *part;
    size_t count = 0;
    while (stored_part(count)) {
        count++;
    }
    do {
        part = stored_part(below(&subject->chance, (uint32_t)count));
    } while (part->cells == 1 && below(&subject->chance, 8) != 0);
    return part;
}

/* Another value, a cell that is another one, a cell or all cells of a part that are zero. */
static void damage(struct subject *subject)
{
    const struct stored_part *part = any_part(subject);
    uint8_t *start = subject->bytes + part->at;
    size_t cell = any_cell(subject, part), other = any_cell(subject, part);
    switch (below(&subject->chance, 32)) {
    case 0:
        memset(start, 0, part->bytes * part->cells);
        break;
    case 1:
        memset(start + part->bytes * cell, 0, part->bytes);
        break;
    case 2:
    case 3:
        memmove(start + part->bytes * cell, start + part->bytes * other, part->bytes);
        break;
    default:
        damage_place(subject, part, cell);
    }
}

/* -- `bytes --why` and the library --------------------------------------- */

enum { RULES = 15 };

struct tally {
    unsigned long halls, refused, rules[RULES + 1];
};

/* The number of the rule that is named, 0 if none is. */
static unsigned named_rule(const char *said)
{
    unsigned rule = 0;
    const char *at = strstr(said, " rule ");
    return at && sscanf(at, " rule %u: ", &rule) == 1 && rule <= RULES ? rule : 0;
}

/* Asks the tool, and compares what it says with the library. */
static void ask_why(struct tally *tally, const struct subject *subject)
{
    static const char *const words[] = {"hall", "bytes", "--why", "-"};
    uint32_t number = hall_check(subject->bytes, subject->length);
    struct call call = call_tool_with(4, words, subject->bytes, subject->length);
    unsigned rule = named_rule(call.err);
    int is_silent = call.status == STATUS_FINE && call.err_length == 0;
    int speaks = call.status == STATUS_REFUSED && rule != 0 && strchr(call.err, '\n') == call.err + call.err_length - 1;
    tally->halls += number == HALL_OK;
    tally->refused += number == HALL_REFUSED_BYTES;
    tally->rules[rule]++;
    if (call.out_length != 0 || (number == HALL_OK ? !is_silent : number != HALL_REFUSED_BYTES || !speaks)) {
        tell_fault(number == HALL_OK ? "a hall" : "no hall", &call);
    }
    end_call(&call);
}

/* A damaged copy of a hall, one in a hundred too short. */
static void damage_copy(struct subject *copy, struct subject *from)
{
    *copy = *from;
    for (uint32_t times = 1 + below(&copy->chance, 3); times != 0; times--) {
        damage(copy);
    }
    if (below(&copy->chance, 100) == 0) {
        copy->length = below(&copy->chance, HALL_LENGTH);
    }
    from->chance = copy->chance;
}

static int try_why(uint32_t count)
{
    enum { EACH = 50, STEPS = 15, RUN = 2500, LEAST = 100 };
    static struct subject reached = {.chance = 0x9e3779b97f4a7c15u}, copy;
    struct tally tally = {0, 0, {0}};
    int enough = 1;
    for (uint32_t i = 0; i < count; i++) {
        if (i % RUN == 0) {
            open_subject(&reached, 1 + i / RUN % HALL_RECORDERS);
        }
        for (uint32_t step = 0; i % EACH == 0 && step < STEPS; step++) {
            step_subject(&reached);
        }
        damage_copy(&copy, &reached);
        ask_why(&tally, &copy);
    }
    printf("%lu halls, %lu refused; by rule", tally.halls, tally.refused);
    for (unsigned rule = 1; rule <= RULES; rule++) {
        printf(" %lu", tally.rules[rule]);
        enough = enough && tally.rules[rule] >= LEAST;
    }
    printf("\n");
    return faults != 0 || !enough || tally.halls < count / 4 || tally.refused < count / 4;
}

/* -- Any bytes ----------------------------------------------------------- */

/* Whether the lines of a dump have all bytes of a hall, each once and rising. */
static int covers_hall(const char *dump)
{
    size_t at = 0, offset, bytes;
    const char *line = strchr(dump, '\n');
    while (line && line[1] != '\0') {
        if (sscanf(line + 1, "%zu %zu ", &offset, &bytes) != 2 || offset != at || bytes == 0) {
            return 0;
        }
        at += bytes;
        line = strchr(line + 1, '\n');
    }
    return at == HALL_LENGTH;
}

/* A dump has all bytes if there are enough, and its status is the library's. */
static void ask_bytes(const struct subject *subject, unsigned long statuses[5])
{
    static const char *const words[] = {"hall", "bytes", "-"}, *const why[] = {"hall", "bytes", "-", "--why"};
    uint32_t number = hall_check(subject->bytes, subject->length);
    struct call call = call_tool_with(3, words, subject->bytes, subject->length);
    struct call other = call_tool_with(4, why, subject->bytes, subject->length);
    if (!is_well(&call) || !is_well(&other) || call.status != other.status ||
        call.status != (number == HALL_OK ? STATUS_FINE : STATUS_REFUSED)) {
        tell_fault("bytes", &call);
    } else if (subject->length < HALL_LENGTH ? call.out_length != 0 : !covers_hall(call.out)) {
        tell_fault("a dump without all bytes", &call);
    } else {
        statuses[call.status]++;
    }
    end_call(&call);
    end_call(&other);
}

/* Some bytes anywhere, all bytes, or another length. */
static void damage_more(struct subject *subject)
{
    size_t first = below(&subject->chance, 4) == 0 ? 0 : below(&subject->chance, HALL_LENGTH);
    size_t end = below(&subject->chance, 4) == 0 ? HALL_LENGTH : first + below(&subject->chance, 4);
    for (size_t i = first; i < end && i < HALL_LENGTH; i++) {
        subject->bytes[i] = (uint8_t)below(&subject->chance, 256);
    }
    if (below(&subject->chance, 3) == 0) {
        subject->length = below(&subject->chance, sizeof subject->bytes + 1);
    } else if (below(&subject->chance, 2) == 0) {
        subject->length = sizeof subject->bytes;
    }
}

static int try_halls(uint32_t count)
{
    static struct subject reached = {.chance = 0x2545f4914f6cdd1du}, copy;
    unsigned long statuses[5] = {0};
    for (uint32_t i = 0; i < count; i++) {
        if (i % 100 == 0) {
            open_subject(&reached, 1 + i / 100 % HALL_RECORDERS);
        }
        for (uint32_t step = 0; step < 3; step++) {
            step_subject(&reached);
        }
        damage_copy(&copy, &reached);
        if (i % 3 == 0) {
            damage_more(&copy);
        }
        ask_bytes(&copy, statuses);
    }
    printf("statuses 0 and 3: %lu %lu\n", statuses[STATUS_FINE], statuses[STATUS_REFUSED]);
    return faults != 0 || statuses[STATUS_FINE] < count / 10 || statuses[STATUS_REFUSED] < count / 10;
}

/* -- Texts --------------------------------------------------------------- */

/* A text as lines. */
struct text {
    uint64_t chance;
    char lines[64][80];
    size_t count;
};

static void read_text(struct text *text, const char *path)
{
    FILE *from = fopen(path, "r");
    if (!from) {
        fail(path);
    }
    text->count = 0;
    while (text->count < 40 && fgets(text->lines[text->count], sizeof text->lines[0], from)) {
        text->count++;
    }
    fclose(from);
}

/* A line there twice, gone, in another place, or with another byte. */
static void damage_text(struct text *text)
{
    static const char bytes[] = "0123456789 {},=#\nx";
    size_t from = below(&text->chance, (uint32_t)text->count), to = 1 + below(&text->chance, (uint32_t)text->count - 1);
    switch (below(&text->chance, 12)) {
    case 0:
        text->lines[from][below(&text->chance, 12)] = bytes[below(&text->chance, sizeof bytes - 1)];
        break;
    case 1:
    case 2:
        memcpy(text->lines[text->count++], text->lines[from], sizeof text->lines[0]);
        break;
    case 3:
    case 4:
        memset(text->lines[from], 0, sizeof text->lines[0]);
        break;
    default:
        memmove(text->lines[to], text->lines[from], sizeof text->lines[0]);
    }
}

/* All lines, one behind another. How many bytes they have. */
static size_t join_text(const struct text *text, char *to)
{
    size_t length = 0;
    for (size_t i = 0; i < text->count; i++) {
        size_t more = strlen(text->lines[i]);
        memcpy(to + length, text->lines[i], more);
        length += more;
    }
    return length;
}

static void ask_where(const char *bytes, size_t length, const char *value, const char *at, unsigned long statuses[5])
{
    const char *const words[] = {"hall", "where", "-", value, "--at", at};
    struct call call = call_tool_with(at ? 6 : 4, words, bytes, length);
    if (!is_well(&call) || strstr(call.err, "in the bytes")) {
        tell_fault("where", &call);
    } else {
        statuses[call.status]++;
    }
    end_call(&call);
}

static int try_texts(uint32_t count, int seeds, char **paths)
{
    static const char *const values[] = {"5", "7", "101"};
    static struct text text = {.chance = 0x9e3779b97f4a7c15u};
    static char bytes[sizeof text.lines];
    unsigned long statuses[5] = {0};
    char at[12];
    for (uint32_t i = 0; i < count; i++) {
        read_text(&text, paths[i % (uint32_t)seeds]);
        for (uint32_t times = 1 + below(&text.chance, 3); times != 0; times--) {
            damage_text(&text);
        }
        size_t length = join_text(&text, bytes);
        const char *value = values[below(&text.chance, sizeof values / sizeof values[0])];
        snprintf(at, sizeof at, "%" PRIu32, below(&text.chance, 20));
        ask_where(bytes, length, value, NULL, statuses);
        ask_where(bytes, length, value, at, statuses);
    }
    printf("statuses 0 to 4: %lu %lu %lu %lu %lu\n", statuses[0], statuses[1], statuses[2], statuses[3], statuses[4]);
    return faults != 0 || statuses[0] < count / 10 || statuses[1] < count / 20 || statuses[2] < count / 20;
}

/* -- Halls for the other tests ------------------------------------------- */

static int write_hall(const char *name)
{
    static struct run run;
    static struct walk walk;
    const struct streams io = {stdin, stdout, stderr};
    if (run_read(&io, name, READ_ASKS, &run) != STATUS_FINE || run.failed || walk_open(&walk, &run) != HALL_OK) {
        fail(name);
    }
    while (walk.done < run.count) {
        walk_step(&walk);
        if (walk.number != HALL_OK) {
            fail("an action is refused");
        }
    }
    run_free(&run);
    return fwrite(walk.hall, 1, HALL_LENGTH, stdout) != HALL_LENGTH;
}

static int write_changed(const char *name, int count, char **changes)
{
    static uint8_t bytes[HALL_LENGTH];
    FILE *from = fopen(name, "rb");
    if (!from || fread(bytes, 1, sizeof bytes, from) != sizeof bytes) {
        fail(name);
    }
    fclose(from);
    for (int i = 0; i < count; i++) {
        unsigned offset, byte;
        if (sscanf(changes[i], "%u=%u", &offset, &byte) != 2 || offset >= sizeof bytes || byte > 255) {
            fail(changes[i]);
        }
        bytes[offset] = (uint8_t)byte;
    }
    return fwrite(bytes, 1, sizeof bytes, stdout) != sizeof bytes;
}

int main(int argc, char **argv)
{
    const char *what = argc > 2 ? argv[1] : "";
    if (strcmp(what, "hall") == 0) {
        return write_hall(argv[2]);
    }
    if (strcmp(what, "set") == 0) {
        return write_changed(argv[2], argc - 3, argv + 3);
    }
    if (strcmp(what, "why") == 0) {
        return try_why((uint32_t)atoi(argv[2]));
    }
    if (strcmp(what, "halls") == 0) {
        return try_halls((uint32_t)atoi(argv[2]));
    }
    if (strcmp(what, "texts") == 0 && argc > 3) {
        return try_texts((uint32_t)atoi(argv[2]), argc - 3, argv + 3);
    }
    fail("usage: damage hall FILE, set HALL OFFSET=BYTE.., why|halls COUNT, texts COUNT FILE..");
}
