/*
 * A command at a terminal.
 *
 *     terminal LINES COMMAND WORD..
 *
 * Runs the command with a terminal of its own, and types a line of the file LINES each
 * time the prompt is shown, then the end of the input. Writes all that the terminal
 * showed. The exit status is the command's; 9 if a prompt does not come in 10 seconds.
 */
#define _XOPEN_SOURCE 700

#include <fcntl.h>
#include <poll.h>
#include <stdio.h>
#include <stdlib.h>
#include <string.h>
#include <sys/wait.h>
#include <unistd.h>

enum { FAILED = 9, PATIENCE = 10000 };

static void fail(const char *what)
{
    perror(what);
    exit(FAILED);
}

/* Runs the command at the other side of the terminal. */
static void run_command(int terminal, char **words)
{
    const char *name = ptsname(terminal);
    setsid();
    int side = name ? open(name, O_RDWR) : -1;
    if (side < 0 || dup2(side, 0) < 0 || dup2(side, 1) < 0 || dup2(side, 2) < 0) {
        fail("terminal");
    }
    close(side);
    close(terminal);
    execv(words[0], words);
    fail(words[0]);
}

/* Shows what comes, up to a prompt that begins a line or to the command's end. Whether
 * it was a prompt. */
static int show_answer(int terminal)
{
    char shown[] = {'\0', '\0', '\n'};
    struct pollfd wait = {terminal, POLLIN, 0};
    while (memcmp(shown, "\n> ", sizeof shown) != 0) {
        memmove(shown, shown + 1, sizeof shown - 1);
        if (poll(&wait, 1, PATIENCE) <= 0) {
            fail("no prompt");
        }
        if (read(terminal, &shown[2], 1) != 1) { /* the other side is closed */
            return 0;
        }
        putchar(shown[2]);
    }
    return 1;
}

int main(int argc, char **argv)
{
    char line[200];
    int status = FAILED, terminal = posix_openpt(O_RDWR | O_NOCTTY);
    FILE *lines = argc > 2 ? fopen(argv[1], "r") : NULL;
    if (!lines || terminal < 0 || grantpt(terminal) != 0 || unlockpt(terminal) != 0) {
        fail("terminal LINES COMMAND WORD..");
    }
    pid_t child = fork();
    if (child == 0) {
        run_command(terminal, argv + 2);
    }
    while (show_answer(terminal)) {
        const char *typed = fgets(line, sizeof line, lines) ? line : "\4";
        if (write(terminal, typed, strlen(typed)) < 0) {
            fail("typing");
        }
    }
    return child > 0 && waitpid(child, &status, 0) == child && WIFEXITED(status) ? WEXITSTATUS(status) : FAILED;
}
