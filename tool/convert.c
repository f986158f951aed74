/* hall make and hall text: a text to a run file, and back to its plain form. */
#include "tool.h"

enum status make_command(const struct streams *io, const struct options *options)
{
    struct run run;
    if (is_same_file(options->words[0], options->output)) {
        return complain(io, STATUS_USAGE, options->output, 0, "the run file would take the place of its text");
    }
    enum status status = run_read_text(io, options->words[0], READ_PLAIN, &run);
    if (status == STATUS_FINE) {
        status = run.failed ? STATUS_DIFFERS : write_bytes(io, options->output, run.file.at, run.file.length);
    }
    run_free(&run);
    return status;
}

static void print_text(FILE *to, const struct run *run)
{
    char words[MAX_WORDS];
    opening_words(&run->opening, words);
    fprintf(to, "%s\n", words);
    for (size_t i = 0; i < run->count; i++) {
        action_words(run->actions + ACTION_WORDS * i, words);
        fprintf(to, "%s\n", words);
    }
}

enum status text_command(const struct streams *io, const struct options *options)
{
    struct run run;
    enum status status = run_read(io, options->words[0], READ_PLAIN, &run);
    if (status == STATUS_FINE) {
        print_text(io->out, &run);
        status = run.failed ? STATUS_DIFFERS : STATUS_FINE;
    }
    run_free(&run);
    return status;
}
