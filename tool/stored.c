/* The stored form of a hall: tables of its fields, and readers. */
#include "stored.h"

#include <inttypes.h>
#include <string.h>

/* -- Tables -------------------------------------------------------------- */

#define FIELD_ROW(cell, member, bytes, ...) {offsetof(struct stored_##cell, member), bytes, __VA_ARGS__},
#define FIELD_TABLE(part, cell, fields, ...) static const struct stored_field part##_fields[] = {fields(FIELD_ROW)};
STORED_PARTS(FIELD_TABLE)

#define PART_ROW(part, cell, fields, cells, ...)                                                                       \
    {offsetof(struct stored_hall, part), sizeof(struct stored_##cell), cells, __VA_ARGS__, part##_fields,              \
     sizeof part##_fields / sizeof part##_fields[0]},
static const struct stored_part parts[] = {STORED_PARTS(PART_ROW)};

const struct stored_part *stored_part(size_t i)
{
    return i < sizeof parts / sizeof parts[0] ? &parts[i] : NULL;
}

/* -- Places -------------------------------------------------------------- */

/* Whether a field is one number; else each of its bytes is one. */
static int is_number(const struct stored_field *field)
{
    return !stored_is_list(field) && !stored_is_set(field);
}

int stored_is_list(const struct stored_field *field)
{
    return field->holds == HOLDS_LIST || field->holds == HOLDS_MESSAGES || field->holds == HOLDS_QUEUE;
}

int stored_is_set(const struct stored_field *field)
{
    return field->holds == HOLDS_ENTRIES || field->holds == HOLDS_SOURCES;
}

size_t stored_place_bytes(const struct stored_field *field)
{
    return field->holds == HOLDS_QUEUE ? 2 : 1;
}

size_t stored_capacity(const struct stored_field *field)
{
    return (field->bytes - 1) / stored_place_bytes(field);
}

struct stored_place stored_place_at(size_t offset)
{
    struct stored_place place = {&parts[0], 0, NULL, 0};
    while (offset >= place.part->at + place.part->bytes * place.part->cells) {
        place.part++;
    }
    size_t within = (offset - place.part->at) % place.part->bytes;
    place.cell = (offset - place.part->at) / place.part->bytes;
    place.field = place.part->fields;
    while (within >= place.field->at + place.field->bytes) {
        place.field++;
    }
    place.item = is_number(place.field) ? 0 : within - place.field->at;
    return place;
}

size_t stored_offset(const struct stored_place *place)
{
    return place->part->at + place->part->bytes * place->cell + place->field->at + place->item;
}

uint32_t stored_value(const struct stored_hall *hall, const struct stored_place *place)
{
    const uint8_t *at = (const uint8_t *)hall + stored_offset(place);
    return is_number(place->field) ? stored_number(at, place->field->bytes) : *at;
}

void stored_cell_words(const struct stored_part *part, size_t cell, char words[MAX_WORDS])
{
    if (part->used == USED_ENDPOINTS) {
        snprintf(words, MAX_WORDS, "%s %zu in view at index %zu", part->name, cell / HALL_MAX_VIEWS + part->first,
                 cell % HALL_MAX_VIEWS);
    } else if (part->cells > 1) {
        snprintf(words, MAX_WORDS, "%s %zu", part->name, cell + part->first);
    } else {
        words[0] = '\0';
    }
}

/* Which byte of a list, a queue or a set it is; nothing for a number. */
static void item_words(const struct stored_place *place, char words[MAX_WORDS])
{
    enum holds holds = place->field->holds;
    size_t item = place->item;
    if (is_number(place->field)) {
        words[0] = '\0';
    } else if (holds == HOLDS_ENTRIES) {
        snprintf(words, MAX_WORDS, "entry %zu", item + 1);
    } else if (holds == HOLDS_SOURCES) {
        snprintf(words, MAX_WORDS, "recorder %zu", item + 1);
    } else if (item == 0) {
        snprintf(words, MAX_WORDS, "length");
    } else if (holds == HOLDS_QUEUE) {
        snprintf(words, MAX_WORDS, "%s at place %zu", item % 2 == 1 ? "source" : "message", (item + 1) / 2);
    } else {
        snprintf(words, MAX_WORDS, "place %zu", item);
    }
}

void stored_field_words(const struct stored_place *place, char words[MAX_WORDS])
{
    char cell[MAX_WORDS];
    const char *name = place->field->name;
    stored_cell_words(place->part, place->cell, cell);
    snprintf(words, MAX_WORDS, "%.90s%s%.90s", cell, cell[0] != '\0' && name[0] != '\0' ? ", " : "", name);
}

void stored_place_words(const struct stored_place *place, char words[MAX_WORDS])
{
    char field[MAX_WORDS], item[MAX_WORDS];
    stored_field_words(place, field);
    item_words(place, item);
    snprintf(words, MAX_WORDS, "%.100s%s%.60s", field, item[0] != '\0' ? ", " : "", item);
}

/* -- Ranges -------------------------------------------------------------- */

/* The range of a byte of a list or queue: its length comes first. */
static struct range list_range(const struct stored_field *field, size_t item)
{
    if (item == 0) {
        return (struct range){0, (uint32_t)stored_capacity(field)};
    }
    if (field->holds == HOLDS_QUEUE && item % 2 == 1) {
        return (struct range){1, HALL_RECORDERS};
    }
    return (struct range){field->least, field->most};
}

struct range stored_range(const struct stored_hall *hall, const struct stored_place *place)
{
    const struct stored_field *field = place->field;
    uint32_t n = stored_n(hall) < HALL_RECORDERS ? stored_n(hall) : HALL_RECORDERS;
    if (stored_is_list(field)) {
        return list_range(field, place->item);
    }
    switch (field->holds) {
    case HOLDS_RECORDER:
        return (struct range){field->least, n};
    case HOLDS_MEMBERS:
        return (struct range){field->least, (1u << n) - 1};
    default:
        return (struct range){field->least, field->most};
    }
}

/* -- Cells --------------------------------------------------------------- */

int stored_is_used(const struct stored_hall *hall, const struct stored_part *part, size_t cell)
{
    switch (part->used) {
    case USED_VIEWS:
        return cell < stored_formed(hall);
    case USED_ENTRIES:
        return cell < stored_entries(hall);
    case USED_RECORDERS:
        return cell < stored_n(hall);
    case USED_ENDPOINTS:
        return cell / HALL_MAX_VIEWS < stored_n(hall) && cell % HALL_MAX_VIEWS < stored_formed(hall);
    default:
        return 1;
    }
}

const uint8_t *stored_first_set(const uint8_t *at, size_t bytes)
{
    if (bytes == 0 || (at[0] == 0 && memcmp(at, at + 1, bytes - 1) == 0)) {
        return NULL;
    }
    while (*at == 0) {
        at++;
    }
    return at;
}

/* -- Readers ------------------------------------------------------------- */

uint32_t stored_number(const uint8_t *at, size_t bytes)
{
    uint32_t number = 0;
    for (size_t i = bytes; i != 0; i--) {
        number = number << 8 | at[i - 1];
    }
    return number;
}

uint32_t stored_n(const struct stored_hall *hall)
{
    return STORED(hall->size[0].n);
}

uint32_t stored_formed(const struct stored_hall *hall)
{
    return STORED(hall->size[0].formed);
}

uint32_t stored_entries(const struct stored_hall *hall)
{
    return STORED(hall->total[0].entries);
}

int stored_is_labelled(const struct stored_hall *hall, uint32_t e)
{
    return e >= 1 && e <= stored_entries(hall) && STORED(hall->entries[e - 1].view) != 0;
}

size_t stored_view_index(const struct stored_hall *hall, uint32_t number)
{
    for (size_t i = 0; i < stored_formed(hall); i++) {
        if (STORED(hall->views[i].number) == number) {
            return i;
        }
    }
    return HALL_MAX_VIEWS;
}

int stored_is_member(const struct stored_hall *hall, size_t index, uint32_t r)
{
    return index < stored_formed(hall) && is_member(STORED(hall->views[index].members), r);
}

const struct stored_recorder *stored_recorder(const struct stored_hall *hall, uint32_t r)
{
    return &hall->recorders[r - 1];
}

const struct stored_endpoint *stored_endpoint(const struct stored_hall *hall, uint32_t r, size_t index)
{
    return &hall->endpoints[(r - 1) * HALL_MAX_VIEWS + index];
}

uint32_t stored_source(const struct stored_queue *queue, size_t place)
{
    return queue->messages[2 * place - 1];
}

uint32_t stored_message(const struct stored_queue *queue, size_t place)
{
    return queue->messages[2 * place];
}
