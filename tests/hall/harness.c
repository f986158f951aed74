/*
 * The tool called many times in one process.
 *
 *     harness runs FOLDER COUNT          writes random run files FOLDER/1.run and on
 *     harness list FOLDER COUNT          their listings, one after another, by `hall trace --listing`
 *     harness texts COUNT WORK FILE..    takes COUNT mutated texts through all commands
 *     harness files COUNT WORK FILE..    the same of mutated run files
 *
 * WORK is a folder for what is mutated. Each time a status other than 0 to 4, an
 * error without words or words without an error is a fault. What is done is the
 * same at each start. The exit status is 0, or 1 if there was a fault.
 */
#include "calls.h"

#include <inttypes.h>
#include <stdlib.h>
#include <string.h>

/* -- Random runs --------------------------------------------------------- */

/* A run that is being made. */
struct making {
    uint64_t chance;
    uint32_t n, view, members; /* the last view that was formed */
    uint32_t actions[ACTION_WORDS * HALL_MAX_ACTIONS];
    size_t count, most;
};

static void add(struct making *making, uint32_t k, uint32_t r, uint32_t a, uint32_t b)
{
    const uint32_t action[ACTION_WORDS] = {k, r, a, b};
    if (making->count < making->most) {
        memcpy(making->actions + ACTION_WORDS * making->count++, action, sizeof action);
    }
}

static void add_all(struct making *making, uint32_t k, uint32_t a)
{
    for (uint32_t r = 1; r <= making->n; r++) {
        if (is_member(making->members, r)) {
            add(making, k, r, a, 0);
        }
    }
}

/* A new view whose members exchange their summaries. */
static void add_view(struct making *making)
{
    making->view += 1 + below(&making->chance, 3);
    making->members = 1 + below(&making->chance, (1u << making->n) - 1);
    add(making, HALL_FORM, 0, making->view, making->members);
    add_all(making, HALL_ENTER, making->view);
    add_all(making, HALL_SEND_SUMMARY, 0);
    add_all(making, HALL_PLACE, making->view);
    for (uint32_t round = 0; round < making->n; round++) {
        add_all(making, HALL_RECEIVE, 0);
    }
    for (uint32_t round = 0; round < making->n; round++) {
        add_all(making, HALL_SAFE, 0);
    }
}

/* An entry that goes all the way in the last view. */
static void add_entry(struct making *making)
{
    uint32_t r = 1 + below(&making->chance, making->n);
    add(making, HALL_SUBMIT, r, below(&making->chance, 1000), 0);
    add(making, HALL_LABEL, r, 0, 0);
    add(making, HALL_SEND_ENTRY, r, 0, 0);
    add(making, HALL_PLACE, r, making->view, 0);
    add_all(making, HALL_RECEIVE, 0);
    add_all(making, HALL_SAFE, 0);
    add_all(making, HALL_CONFIRM, 0);
    add_all(making, HALL_DELIVER, 0);
}

/* Any action: mostly a kind with its recorder, at times any words. */
static void add_any(struct making *making)
{
    uint32_t k = below(&making->chance, 13), r = below(&making->chance, making->n + 2);
    int has_view = k == HALL_ENTER || k == HALL_PLACE;
    uint32_t a = k == HALL_SUBMIT ? below(&making->chance, 4294967295u) : has_view ? making->view : 0;
    if (below(&making->chance, 8) == 0) {
        a = below(&making->chance, 4294967295u);
    }
    add(making, k, r, a, below(&making->chance, 16) == 0 ? below(&making->chance, 300) : 0);
}

static void make_actions(struct making *making)
{
    while (making->count < making->most) {
        switch (below(&making->chance, 8)) {
        case 0:
            add_view(making);
            break;
        case 1:
        case 2:
            add_entry(making);
            break;
        default:
            add_any(making);
        }
    }
}

/* Writes run file number i, every third with votes. */
static void make_run(const char *folder, uint32_t i)
{
    static struct making making;
    static uint8_t file[HALL_MAX_FILE];
    uint8_t words[HALL_ANSWER_LENGTH];
    char path[4096];
    memset(&making, 0, sizeof making);
    making.chance = 0x9e3779b97f4a7c15u * (i + 1);
    making.n = 1 + below(&making.chance, HALL_RECORDERS);
    making.view = 1;
    making.members = below(&making.chance, 3) == 0 ? 1 : (1u << making.n) - 1;
    making.most = i % 50 == 0 ? 4000 : below(&making.chance, 300);
    make_actions(&making);
    uint32_t votes[HALL_RECORDERS] = {0};
    for (uint32_t r = 0; r < making.n; r++) {
        votes[r] = below(&making.chance, 5);
    }
    votes[0] += 1;
    uint32_t founders = making.members == 1 && i % 2 == 0 ? 0 : making.members;
    uint32_t number = i % 3 == 0 ? hall_run_write_row(file, sizeof file, making.n, founders, votes, making.actions,
                                                      ACTION_WORDS * making.count, words, sizeof words)
                                 : hall_run_write_built_in(file, sizeof file, making.n, founders, making.actions,
                                                           ACTION_WORDS * making.count, words, sizeof words);
    if (number != HALL_OK) {
        fail("a run cannot be written");
    }
    snprintf(path, sizeof path, "%s/%" PRIu32 ".run", folder, i);
    write_file(path, file, hall_word(words, HALL_WRITTEN_LENGTH));
}

static void list_run(const char *folder, uint32_t i)
{
    char path[4096];
    snprintf(path, sizeof path, "%s/%" PRIu32 ".run", folder, i);
    const char *const words[] = {"hall", "trace", "--listing", path};
    struct call call = call_tool(4, words);
    fwrite(call.out, 1, call.out_length, stdout);
    end_call(&call);
}

/* -- Mutated inputs ------------------------------------------------------ */

enum { MOST_BYTES = 70000 };

struct mutant {
    uint64_t chance;
    uint8_t bytes[MOST_BYTES];
    size_t length;
};

static void read_seed(struct mutant *mutant, const char *path)
{
    FILE *from = fopen(path, "rb");
    if (!from) {
        fail(path);
    }
    mutant->length = fread(mutant->bytes, 1, MOST_BYTES / 2, from);
    fclose(from);
}

/* Puts bytes in the place of some others. */
static void replace(struct mutant *mutant, size_t at, size_t cut, const void *with, size_t length)
{
    if (at > mutant->length || cut > mutant->length - at || mutant->length - cut + length > MOST_BYTES) {
        return;
    }
    memmove(mutant->bytes + at + length, mutant->bytes + at + cut, mutant->length - at - cut);
    memcpy(mutant->bytes + at, with, length);
    mutant->length = mutant->length - cut + length;
}

static size_t any_place(struct mutant *mutant)
{
    return below(&mutant->chance, (uint32_t)mutant->length + 1);
}

static void mutate_byte(struct mutant *mutant)
{
    uint8_t byte = (uint8_t)below(&mutant->chance, 256);
    replace(mutant, any_place(mutant), below(&mutant->chance, 2), &byte, below(&mutant->chance, 2));
}

/* What texts are made of, and what they are not. */
static const char *const pieces[] = {
    "hall 3\n", "hall 8 founders {1,8} votes 1 0 0 0 0 0 0 1000\n", "founders", "whole", "votes", "{}", "{1,2,3}", "{9}",
    "submit 1 5\n", "label 2\n", "send 1\n", "summary 2\n", "form 9 {1,2}\n", "enter 1 9\n", "place 1 1\n", "receive 1\n",
    "safe 2\n", "confirm 3\n", "deliver 1\n", "raw 12 9 0 0\n", "raw 1 1 5 0\n", "log 1 7\n", "exchange 1\n", "settle\n",
    "show 1\n", "show 9\n", "= ok\n", "= refused 38\n", "= refused 42\n", "= entry 1.1.1 5\n", "= entry 1.1 5\n",
    "= entry 1.1.1.1 5\n", "= summary 1 2 3 4 5\n", "= from 1 5\n", "= from 1\n", "=\n", "all", " all 1", "receive all 1\n",
    "safe all 1\n", "confirm all 2\n", "deliver all 9\n", "\n", " ", "\t", "\r", "#", "# remark\n", "4294967295",
    "4294967296", "00000000000000000001", "-1", "0", "99999999999999999999999999999999", "\xff", ".", ",", "{", "}", "=",
};

/* Where the line at a place begins. */
static size_t line_start(const struct mutant *mutant, size_t at)
{
    while (at > 0 && mutant->bytes[at - 1] != '\n') {
        at--;
    }
    return at;
}

/* Pieces of whole lines stand between lines. */
static void mutate_piece(struct mutant *mutant)
{
    const char *piece = pieces[below(&mutant->chance, sizeof pieces / sizeof pieces[0])];
    size_t at = any_place(mutant);
    if (strchr(piece, '\n')) {
        replace(mutant, line_start(mutant, at), 0, piece, strlen(piece));
    } else {
        replace(mutant, at, below(&mutant->chance, 4), piece, strlen(piece));
    }
}

static size_t line_length(const struct mutant *mutant, size_t at)
{
    size_t end = at;
    while (end < mutant->length && mutant->bytes[end++] != '\n') {
    }
    return end - at;
}

/* A line is gone, or there twice, or is another one. */
static void mutate_line(struct mutant *mutant)
{
    uint8_t line[256];
    size_t from = line_start(mutant, any_place(mutant)), to = line_start(mutant, any_place(mutant));
    size_t length = line_length(mutant, from), old = line_length(mutant, to);
    if (length > sizeof line) {
        return;
    }
    memcpy(line, mutant->bytes + from, length);
    switch (below(&mutant->chance, 3)) {
    case 0:
        replace(mutant, from, length, line, 0);
        break;
    case 1:
        replace(mutant, to, 0, line, length);
        break;
    default:
        replace(mutant, to, old, line, length);
    }
}

/* Another piece of a text for a number or a word. */
static void mutate_field(struct mutant *mutant)
{
    size_t at = any_place(mutant), end = at;
    while (end < mutant->length && mutant->bytes[end] > ' ') {
        end++;
    }
    char number[16];
    snprintf(number, sizeof number, "%" PRIu32, below(&mutant->chance, 12));
    replace(mutant, at, end - at, number, strlen(number));
}

static void mutate_text(struct mutant *mutant)
{
    for (uint32_t times = 1 + below(&mutant->chance, 2); times != 0; times--) {
        switch (below(&mutant->chance, 10)) {
        case 0:
            mutate_byte(mutant);
            break;
        case 1:
        case 2:
            mutate_piece(mutant);
            break;
        case 3:
            mutate_field(mutant);
            break;
        case 4:
            mutant->length = below(&mutant->chance, 4) == 0 ? any_place(mutant) : mutant->length;
            break;
        default:
            mutate_line(mutant);
        }
    }
}

/* A word of a run file: mostly of its actions, so that the file is taken. */
static void mutate_word(struct mutant *mutant)
{
    size_t blocks = mutant->length / HALL_RUN_BLOCK;
    if (blocks < 3) {
        return;
    }
    size_t block = 1 + below(&mutant->chance, (uint32_t)blocks - 2), word = below(&mutant->chance, 4);
    uint8_t *at = mutant->bytes + HALL_RUN_BLOCK * block + 4 * word;
    memset(at, 0, 4);
    at[0] = (uint8_t)below(&mutant->chance, 13);
    at[below(&mutant->chance, 4)] |= (uint8_t)(below(&mutant->chance, 8) == 0 ? below(&mutant->chance, 256) : 0);
}

/* A block twice or gone, with the trailer put right. */
static void mutate_block(struct mutant *mutant)
{
    uint8_t block[HALL_RUN_BLOCK];
    size_t blocks = mutant->length / HALL_RUN_BLOCK;
    if (blocks < 4 || mutant->length % HALL_RUN_BLOCK != 0) {
        return;
    }
    size_t at = HALL_RUN_BLOCK * (1 + below(&mutant->chance, (uint32_t)blocks - 2));
    int more = below(&mutant->chance, 2) == 0;
    memcpy(block, mutant->bytes + at, sizeof block);
    replace(mutant, at, more ? 0 : sizeof block, block, more ? sizeof block : 0);
    uint8_t *trailer = mutant->bytes + mutant->length - HALL_RUN_BLOCK;
    for (size_t word = 0; word < 2; word++) {
        uint32_t value = hall_word(trailer, word);
        uint32_t step = word == 0 ? HALL_RUN_BLOCK : 1;
        value = more ? value + step : value - step;
        for (size_t i = 0; i < 4; i++) {
            trailer[4 * word + i] = (uint8_t)(value >> (8 * i));
        }
    }
}

static void mutate_file(struct mutant *mutant)
{
    for (uint32_t times = 1 + below(&mutant->chance, 4); times != 0; times--) {
        switch (below(&mutant->chance, 12)) {
        case 0:
            mutate_byte(mutant);
            break;
        case 1:
            mutant->length = below(&mutant->chance, 4) == 0 ? any_place(mutant) : mutant->length;
            break;
        case 2:
            replace(mutant, 0, 0, "earlier", below(&mutant->chance, 8));
            break;
        case 3:
        case 4:
        case 5:
            mutate_block(mutant);
            break;
        default:
            mutate_word(mutant);
        }
    }
}

/* -- All commands on a mutant -------------------------------------------- */

struct trial {
    const char *path, *seed, *made; /* the mutant, what it came from, a run file to make */
    unsigned long faults, calls, statuses[5];
    unsigned long drawn; /* every other mutant in text, the others as pictures */
};

/* Makes a call, and judges how it ended. */
static struct call try_call(struct trial *trial, int argc, const char *const *words)
{
    struct call call = call_tool(argc, words);
    trial->calls++;
    if (call.status >= STATUS_FINE && call.status <= STATUS_FAILED) {
        trial->statuses[call.status]++;
    }
    if (!is_well(&call)) {
        trial->faults++;
        fprintf(stderr, "harness: hall %s %s: status %d, says: %s\n", words[1], trial->path, call.status, call.err);
    }
    return call;
}

static void try_command(struct trial *trial, int argc, const char *const *words)
{
    struct call call = try_call(trial, argc, words);
    end_call(&call);
}

/* The plain form of a text is its own plain form. */
static void try_text(struct trial *trial)
{
    const char *const words[] = {"hall", "text", trial->path};
    struct call first = try_call(trial, 3, words);
    if (first.status == STATUS_FINE) {
        const char *const again[] = {"hall", "text", trial->made};
        write_file(trial->made, (const uint8_t *)first.out, first.out_length);
        struct call second = try_call(trial, 3, again);
        if (second.status != STATUS_FINE || strcmp(first.out, second.out) != 0) {
            trial->faults++;
            fprintf(stderr, "harness: hall text %s: its plain form has another one\n", trial->path);
        }
        end_call(&second);
    }
    end_call(&first);
}

static void try_commands(struct trial *trial)
{
    const char *const make[] = {"hall", "make", trial->path, "-o", trial->made};
    const char *const trace[] = {"hall", "trace", trial->path};
    const char *const refused[] = {"hall", "trace", "--refused", "--only", "2", trial->path};
    const char *const listing[] = {"hall", "trace", "--listing", trial->path};
    const char *const group[] = {"hall", "group", trial->path};
    const char *const at[] = {"hall", "group", "--at", "5", trial->path};
    const char *const diff[] = {"hall", "diff", trial->path, trial->seed};
    const char *const check[] = {"hall", "check", trial->path};
    const char *const lanes[] = {"hall", "draw", trial->path};
    const char *const picture[] = {"hall", "draw", "--from", "3", trial->path, "-o", trial->made};
    try_text(trial);
    try_command(trial, 5, make);
    try_command(trial, 3, trace);
    try_command(trial, 6, refused);
    try_command(trial, 4, listing);
    try_command(trial, 3, group);
    try_command(trial, 5, at);
    try_command(trial, 4, diff);
    try_command(trial, 3, check);
    if (trial->drawn++ % 2 == 0) {
        try_command(trial, 3, lanes);
    } else {
        try_command(trial, 7, picture);
    }
}

static int try_mutants(uint32_t count, const char *work, int is_text, int seeds, char **paths)
{
    static struct mutant mutant;
    char path[4096], made[4096];
    snprintf(path, sizeof path, "%s/mutant.%s", work, is_text ? "txt" : "run");
    snprintf(made, sizeof made, "%s/made-%s", work, is_text ? "of-text" : "of-file");
    struct trial trial = {.path = path, .made = made};
    for (uint32_t i = 0; i < count; i++) {
        trial.seed = paths[i % (uint32_t)seeds];
        mutant.chance = 0x9e3779b97f4a7c15u * (i + 7);
        read_seed(&mutant, trial.seed);
        if (is_text) {
            mutate_text(&mutant);
        } else {
            mutate_file(&mutant);
        }
        write_file(path, mutant.bytes, mutant.length);
        try_commands(&trial);
    }
    printf("%lu calls, statuses 0 to 4: %lu %lu %lu %lu %lu\n", trial.calls, trial.statuses[0], trial.statuses[1],
           trial.statuses[2], trial.statuses[3], trial.statuses[4]);
    /* That each status came that can come shows that the mutants are worth something. */
    return trial.faults != 0 || trial.statuses[0] == 0 || trial.statuses[1] == 0 || trial.statuses[2] == 0 ||
           trial.statuses[3] == 0;
}

int main(int argc, char **argv)
{
    if (argc == 4 && strcmp(argv[1], "runs") == 0) {
        for (uint32_t i = 1; i <= (uint32_t)atoi(argv[3]); i++) {
            make_run(argv[2], i);
        }
        return 0;
    }
    if (argc == 4 && strcmp(argv[1], "list") == 0) {
        for (uint32_t i = 1; i <= (uint32_t)atoi(argv[3]); i++) {
            list_run(argv[2], i);
        }
        return 0;
    }
    if (argc >= 5 && (strcmp(argv[1], "texts") == 0 || strcmp(argv[1], "files") == 0)) {
        return try_mutants((uint32_t)atoi(argv[2]), argv[3], strcmp(argv[1], "texts") == 0, argc - 4, argv + 4);
    }
    fail("usage: harness runs|list FOLDER COUNT, harness texts|files COUNT WORK FILE..");
}
