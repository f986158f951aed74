/* The commands: the command line, the help, the statuses. */
#include "tool.h"

#include <inttypes.h>
#include <string.h>

/* Options that a command may have. */
enum option {
    OPTION_OUTPUT = 1, /* -o NAME */
    NEEDS_OUTPUT = 2,  /* it must be given */
    OPTION_REFUSED = 4,
    OPTION_ONLY = 8,
    OPTION_LISTING = 16,
    OPTION_AT = 32,
    OPTION_SPAN = 64, /* --from and --to */
    OPTION_WHY = 128
};

struct command {
    const char *name;
    enum status (*perform)(const struct streams *io, const struct options *options);
    int least, most;  /* how many words it takes: files, and of where a value */
    unsigned options; /* those it takes */
    const char *usage, *gives, *help;
};

static const struct command commands[] = {
    {"make", make_command, 1, 1, OPTION_OUTPUT | NEEDS_OUTPUT, "hall make TEXT -o FILE", "a run file of a text",
     "Unfolds a text into plain actions and writes them as a run file. Lines with = and show\n"
     "are passed over. If something is wrong no file is written, and an earlier one stays.\n"},
    {"text", text_command, 1, 1, 0, "hall text FILE", "the plain text of a run",
     "Prints the opening and the actions, one a line. Of a text it prints the plain form.\n"},
    {"trace", trace_command, 1, 1, OPTION_REFUSED | OPTION_ONLY | OPTION_LISTING,
     "hall trace FILE [--refused] [--only R] [--listing]", "the actions with their answers and changes",
     "A line an action: its number, the action, the answer or the reason of its refusal, and\n"
     "what changed on the recorder's page.\n"
     "  --refused   only actions that are refused\n"
     "  --only R    only actions at recorder R\n"
     "  --listing   the listing, as ./replay writes it\n"},
    {"group", group_command, 1, 1, OPTION_AT, "hall group FILE [--at K]", "a row for each recorder",
     "Shows view, members, margin, primary or not, phase, length of the log, how much of it is\n"
     "confirmed and delivered, and how many entries wait for their label.\n"
     "  --at K      after the first K actions, else after all\n"},
    {"diff", diff_command, 2, 2, 0, "hall diff FILE FILE", "where two runs first differ",
     "Names the first difference of the openings, and of the actions or their answers, with the\n"
     "fields of the pages that then differ, and how far the delivered lists agree. Prints nothing\n"
     "for two equal runs.\n"},
    {"check", check_command, 1, 1, 0, "hall check FILE", "what was submitted, delivered and confirmed",
     "Shows the lists of each recorder side by side, and which list begins which.\n"},
    {"draw", draw_command, 1, 1, OPTION_OUTPUT | OPTION_SPAN, "hall draw FILE [--from I] [--to J] [-o PICTURE]",
     "the run as lanes, in text or as SVG",
     "A lane for each recorder, with its views, what it did, and messages from place to receive.\n"
     "  --from I    from action I on\n"
     "  --to J      up to action J\n"
     "  -o PICTURE  an SVG picture, else lanes in text\n"},
    {"where", where_command, 2, 2, OPTION_AT, "hall where FILE VALUE [--at K]", "what has become of an entry",
     "For each entry with the value its label, and how far it has come at each recorder: unknown,\n"
     "waiting, buffered, pending, queued, known, ordered at a place, confirmed, delivered.\n"
     "  --at K      after the first K actions, else after all\n"},
    {"bytes", bytes_command, 1, 1, OPTION_WHY, "hall bytes HALL [--why]", "a stored hall, field by field",
     "Prints the fields of a stored hall with their offsets; cells that are zero are told in one line.\n"
     "HALL is a file with the bytes of a hall, - is standard input.\n"
     "  --why       nothing but why the bytes are no hall: offset, field and rule\n"},
    {"play", play_command, 0, 1, 0, "hall play [FILE]", "a prompt: lines of text in, answers and pages out",
     "Reads lines of text from standard input and answers each at once; a FILE is taken first.\n"
     "  back        takes the newest accepted action back\n"
     "  group       shows the group\n"
     "  save X.run  saves the run, and save X.hall the hall\n"
     "  help        lists what may be typed\n"
     "  quit        ends it, as the end of the input does\n"},
};

enum { COMMANDS = sizeof commands / sizeof commands[0] };

static enum status complain_usage(const struct streams *io, const char *words)
{
    return complain(io, STATUS_USAGE, "hall", 0, "usage: %s", words);
}

/* -- Help ---------------------------------------------------------------- */

static const struct command *find_command(const char *name)
{
    for (size_t i = 0; i < COMMANDS; i++) {
        if (strcmp(commands[i].name, name) == 0) {
            return &commands[i];
        }
    }
    return NULL;
}

static enum status print_command_help(const struct streams *io, const struct command *command)
{
    fprintf(io->out, "%s: %s\n\n%s", command->usage, command->gives, command->help);
    return STATUS_FINE;
}

static enum status print_help(const struct streams *io)
{
    fputs("hall: runs of the hall log as text, traced, drawn and compared\n\n", io->out);
    for (size_t i = 0; i < COMMANDS; i++) {
        fprintf(io->out, "  %-50s  %s\n", commands[i].usage, commands[i].gives);
    }
    fprintf(io->out, "  %-50s  %s\n", "hall help [COMMAND]", "this page, or more of a command");
    fprintf(io->out, "  %-50s  %s\n\n", "hall --version", "the version of the interface");
    fputs("A FILE whose name ends in .run is a run file; any other is a text, and - is standard input.\n"
          "The status is 0; 1 if runs differ, no entry has the value, a = fails or an explanation does, and of\n"
          "trace if an action is refused that no = asked for; 2 if the command line or a line of text is\n"
          "wrong; 3 if the library refuses a file or a hall; 4 if input or output fails.\n",
          io->out);
    return STATUS_FINE;
}

static enum status help_command(const struct streams *io, int words, char **texts)
{
    if (words == 0 || (words == 1 && strcmp(texts[0], "help") == 0)) {
        return print_help(io);
    }
    const struct command *command = find_command(texts[0]);
    return words == 1 && command ? print_command_help(io, command) : complain_usage(io, "hall help [COMMAND]");
}

/* -- Versions ------------------------------------------------------------ */

static enum status print_version(const struct streams *io)
{
    uint32_t version = hall_version();
    fprintf(io->out, "hall %" PRIu32 ".%" PRIu32 ".%" PRIu32 "\n", version / 1000000, version / 1000 % 1000,
            version % 1000);
    return STATUS_FINE;
}

/* Whether the tool was built with the header of the library it is linked with. */
static int is_one_version(void)
{
    return hall_version() == HALL_VERSION && hall_length() == HALL_LENGTH;
}

/* -- The command line ---------------------------------------------------- */

enum status check_count(const struct streams *io, const struct run *run, const char *option, uint32_t count)
{
    if (count <= run->count) {
        return STATUS_FINE;
    }
    return complain(io, STATUS_USAGE, run->name, 0, "%s %" PRIu32 ": there are %zu actions", option, count, run->count);
}

/* The words that are still to be read. */
struct line {
    char **texts;
    int left;
};

/* Takes the word behind an option. Whether there is one. */
static int take_word(struct line *line, const char **word)
{
    if (line->left == 0) {
        return 0;
    }
    *word = *line->texts++;
    line->left--;
    return 1;
}

/* Takes a number behind an option. Whether there is one. */
static int take_number(struct line *line, uint32_t *number)
{
    const char *word;
    return take_word(line, &word) && field_number((struct field){word, strlen(word)}, number);
}

/* Takes an option, and what stands behind it. Whether the command has it. */
static int take_option(const struct command *command, const char *text, struct line *line, struct options *options)
{
    if (strcmp(text, "-o") == 0) {
        return command->options & OPTION_OUTPUT && take_word(line, &options->output);
    }
    if (strcmp(text, "--refused") == 0) {
        options->refused = 1;
        return (command->options & OPTION_REFUSED) != 0;
    }
    if (strcmp(text, "--listing") == 0) {
        options->listing = 1;
        return (command->options & OPTION_LISTING) != 0;
    }
    if (strcmp(text, "--only") == 0) {
        options->has_only = 1;
        return command->options & OPTION_ONLY && take_number(line, &options->only);
    }
    if (strcmp(text, "--why") == 0) {
        options->why = 1;
        return (command->options & OPTION_WHY) != 0;
    }
    if (strcmp(text, "--at") == 0) {
        options->has_at = 1;
        return command->options & OPTION_AT && take_number(line, &options->at);
    }
    if (strcmp(text, "--from") == 0) {
        options->has_from = 1;
        return command->options & OPTION_SPAN && take_number(line, &options->from);
    }
    if (strcmp(text, "--to") == 0) {
        options->has_to = 1;
        return command->options & OPTION_SPAN && take_number(line, &options->to);
    }
    return 0;
}

/* Takes the words behind a command's name. Whether they are right. */
static int take_options(const struct command *command, struct line *line, struct options *options)
{
    int words = 0, may_be_option = 1;
    const char *text;
    while (take_word(line, &text)) {
        if (may_be_option && strcmp(text, "--") == 0) {
            may_be_option = 0;
        } else if (may_be_option && text[0] == '-' && text[1] != '\0') {
            if (!take_option(command, text, line, options)) {
                return 0;
            }
        } else if (words == command->most) {
            return 0;
        } else {
            options->words[words++] = text;
        }
    }
    int alone = !options->listing || (!options->refused && !options->has_only);
    return words >= command->least && alone && (!(command->options & NEEDS_OUTPUT) || options->output);
}

/* Whether --help stands among the words, before two dashes. */
static int asks_help(int words, char **texts)
{
    for (int i = 0; i < words && strcmp(texts[i], "--") != 0; i++) {
        if (strcmp(texts[i], "--help") == 0) {
            return 1;
        }
    }
    return 0;
}

/* Standard input is read once. */
static int reads_twice(const struct options *options)
{
    return options->words[1] && strcmp(options->words[0], "-") == 0 && strcmp(options->words[1], "-") == 0;
}

static enum status perform(const struct streams *io, const struct command *command, int words, char **texts)
{
    struct options options = {.words = {NULL, NULL}};
    struct line line = {texts, words};
    if (asks_help(words, texts)) {
        return print_command_help(io, command);
    }
    if (!take_options(command, &line, &options) || reads_twice(&options)) {
        return complain_usage(io, command->usage);
    }
    return command->perform(io, &options);
}

static enum status choose(const struct streams *io, int words, char **texts)
{
    if (!is_one_version()) {
        return complain(io, STATUS_REFUSED, "hall", 0, "built for another version of the library");
    }
    if (words == 0) {
        return complain_usage(io, "hall COMMAND ..; hall help lists the commands");
    }
    if (strcmp(texts[0], "help") == 0 || strcmp(texts[0], "--help") == 0) {
        return help_command(io, words - 1, texts + 1);
    }
    if (strcmp(texts[0], "--version") == 0) {
        return words == 1 ? print_version(io) : complain_usage(io, "hall --version");
    }
    const struct command *command = find_command(texts[0]);
    if (!command) {
        return complain(io, STATUS_USAGE, "hall", 0, "no such command: %.40s; hall help lists the commands", texts[0]);
    }
    return perform(io, command, words - 1, texts + 1);
}

enum status hall_main(int argc, char **argv, const struct streams *io)
{
    enum status status = argc > 0 ? choose(io, argc - 1, argv + 1) : choose(io, 0, argv);
    enum status flushed = flush_output(io);
    return flushed != STATUS_FINE ? flushed : status;
}
