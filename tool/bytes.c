/* hall bytes: a stored hall field by field, and why bytes are no hall. */
#include "stored.h"

#include <inttypes.h>
#include <stdlib.h>

/* -- Values -------------------------------------------------------------- */

/* The message at a place of a list or queue, with its source in a queue. */
static void print_message(FILE *to, const struct stored_field *field, const uint8_t *at, size_t place)
{
    size_t bytes = stored_place_bytes(field);
    uint8_t message = at[bytes * place];
    if (message == 0 && field->holds != HOLDS_LIST) {
        fputs("summary", to);
    } else {
        fprintf(to, "%u", message);
    }
    if (field->holds == HOLDS_QUEUE) {
        fprintf(to, " of %u", at[bytes * place - 1]);
    }
}

/* The length, the places within it, and those past it that are not zero. */
static void print_list(FILE *to, const struct stored_field *field, const uint8_t *at)
{
    size_t bytes = stored_place_bytes(field);
    fprintf(to, "length %u", at[0]);
    for (size_t place = 1; place <= stored_capacity(field); place++) {
        if (place <= at[0]) {
            fputs(place == 1 ? ": " : ", ", to);
            print_message(to, field, at, place);
        } else if (stored_first_set(at + 1 + bytes * (place - 1), bytes)) {
            fprintf(to, "; place %zu: ", place);
            print_message(to, field, at, place);
        }
    }
}

/* The numbers whose byte is 1, then those with another byte than 0. */
static void print_set(FILE *to, const struct stored_field *field, const uint8_t *at)
{
    const char *before = "";
    putc('{', to);
    for (size_t i = 0; i < field->bytes; i++) {
        if (at[i] == 1) {
            fprintf(to, "%s%zu", before, i + 1);
            before = ",";
        }
    }
    putc('}', to);
    for (size_t i = 0; i < field->bytes; i++) {
        if (at[i] > 1) {
            fprintf(to, "; place %zu: %u", i + 1, at[i]);
        }
    }
}

static void print_number(FILE *to, enum holds holds, uint32_t number)
{
    char words[MAX_WORDS];
    fprintf(to, "%" PRIu32, number);
    if (holds == HOLDS_VIEW && number == 0) {
        fputs(", none", to);
    } else if (holds == HOLDS_PHASE) {
        fprintf(to, ", %s", hall_phase_name(number));
    } else if (holds == HOLDS_MEMBERS) {
        set_words(number, words);
        fprintf(to, ", %s", words);
    }
}

static void print_value(FILE *to, const struct stored_hall *hall, const struct stored_place *place)
{
    const uint8_t *at = (const uint8_t *)hall + stored_offset(place);
    if (stored_is_list(place->field)) {
        print_list(to, place->field, at);
    } else if (stored_is_set(place->field)) {
        print_set(to, place->field, at);
    } else {
        print_number(to, place->field->holds, stored_value(hall, place));
    }
}

/* -- Lines --------------------------------------------------------------- */

static void print_cell(FILE *to, const struct stored_hall *hall, const struct stored_part *part, size_t cell)
{
    char words[MAX_WORDS];
    for (size_t i = 0; i < part->field_count; i++) {
        struct stored_place place = {part, cell, &part->fields[i], 0};
        stored_field_words(&place, words);
        fprintf(to, "%6zu  %5zu  %s: ", stored_offset(&place), place.field->bytes, words);
        print_value(to, hall, &place);
        putc('\n', to);
    }
}

/* One line for cells that are zero. */
static void print_zero(FILE *to, const struct stored_part *part, size_t cell, size_t end)
{
    char first[MAX_WORDS], last[MAX_WORDS];
    stored_cell_words(part, cell, first);
    stored_cell_words(part, end - 1, last);
    fprintf(to, "%6zu  %5zu  %s%s%s: zero\n", part->at + part->bytes * cell, part->bytes * (end - cell), first,
            cell + 1 == end ? "" : " to ", cell + 1 == end ? "" : last);
}

/* Where the cells end that are zero from a cell on. */
static size_t zero_end(const struct stored_hall *hall, const struct stored_part *part, size_t cell)
{
    const uint8_t *at = (const uint8_t *)hall + part->at;
    while (cell < part->cells && !stored_first_set(at + part->bytes * cell, part->bytes)) {
        cell++;
    }
    return cell;
}

static void print_part(FILE *to, const struct stored_hall *hall, const struct stored_part *part)
{
    size_t cell = 0;
    while (cell < part->cells) {
        size_t end = part->cells == 1 ? cell : zero_end(hall, part, cell);
        if (end == cell) {
            print_cell(to, hall, part, cell++);
        } else {
            print_zero(to, part, cell, end);
            cell = end;
        }
    }
}

static void print_hall(FILE *to, const struct stored_hall *hall)
{
    const struct stored_part *part;
    fputs("offset  bytes  field: value\n", to);
    for (size_t i = 0; (part = stored_part(i)) != NULL; i++) {
        print_part(to, hall, part);
    }
}

/* -- Why ----------------------------------------------------------------- */

/* A breach in words; `lead` comes before it. */
static enum status complain_breach(const struct streams *io, enum status status, const char *name, const char *lead,
                                   const struct stored_hall *hall, const struct breach *breach)
{
    char place[MAX_WORDS], limits[MAX_WORDS] = "";
    struct range range = stored_range(hall, &breach->place);
    stored_place_words(&breach->place, place);
    if (breach->rule == RULE_RANGE) {
        snprintf(limits, sizeof limits, " %" PRIu32 " to %" PRIu32, range.least, range.most);
    }
    return complain(io, status, name, 0, "%soffset %zu: %s: %" PRIu32 " breaks rule %u: %s%s", lead,
                    stored_offset(&breach->place), place, stored_value(hall, &breach->place), breach->rule,
                    rule_words(breach->rule), limits);
}

/* Says that the bytes are too few. */
static enum status complain_short(const struct streams *io, const struct options *options, size_t length,
                                  uint32_t number)
{
    const char *name = options->words[0], *rule = rule_words(RULE_LENGTH);
    if (number == HALL_OK) {
        return complain(io, STATUS_DIFFERS, name, 0, "the library takes %zu bytes, and yet: %s", length, rule);
    }
    if (options->why) {
        return complain(io, STATUS_REFUSED, name, 0, "offset %zu: the end: %zu bytes break rule %u: %s", length, length,
                        (unsigned)RULE_LENGTH, rule);
    }
    return complain(io, STATUS_REFUSED, name, 0, "refused %" PRIu32 ": %s: there are %zu bytes, and %s", number,
                    hall_refusal_text(number, 0), length, rule);
}

/* Explains what the library says of enough bytes. */
static enum status explain(const struct streams *io, const char *name, const struct stored_hall *hall, uint32_t number)
{
    struct breach breach = find_breach(hall);
    if (number == HALL_OK && breach.rule == 0) {
        return STATUS_FINE;
    }
    if (number == HALL_OK) {
        return complain_breach(io, STATUS_DIFFERS, name, "the library takes these bytes, and yet: ", hall, &breach);
    }
    if (breach.rule == 0) {
        return complain(io, STATUS_DIFFERS, name, 0, "the library refuses %" PRIu32 ", and no rule is broken", number);
    }
    return complain_breach(io, STATUS_REFUSED, name, "", hall, &breach);
}

/* -- The command --------------------------------------------------------- */

static enum status show_bytes(const struct streams *io, const struct options *options, const struct bytes *bytes)
{
    const char *name = options->words[0];
    const struct stored_hall *hall = (const struct stored_hall *)bytes->at;
    uint32_t number = hall_check(bytes->at, bytes->length);
    if (bytes->length < sizeof *hall) {
        return complain_short(io, options, bytes->length, number);
    }
    if (options->why) {
        return explain(io, name, hall, number);
    }
    print_hall(io->out, hall);
    return number == HALL_OK ? STATUS_FINE : complain_refused(io, name, 0, number);
}

enum status bytes_command(const struct streams *io, const struct options *options)
{
    struct bytes bytes;
    enum status status = read_bytes(io, options->words[0], HALL_LENGTH, &bytes);
    if (status == STATUS_FINE) {
        status = show_bytes(io, options, &bytes);
    }
    free(bytes.at);
    return status;
}
