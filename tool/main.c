/* The program `hall`: hall_main on the standard streams. */
#define _XOPEN_SOURCE 700

#include "tool.h"

#include <fcntl.h>

/* Gives a standard stream that is closed a file of the other direction, so that no
 * file that is opened later takes its place and every use of it fails. */
static void hold_place(int descriptor, int mode)
{
    if (fcntl(descriptor, F_GETFD) == -1) {
        (void)!open("/dev/null", mode);
    }
}

int main(int argc, char **argv)
{
    hold_place(0, O_WRONLY);
    hold_place(1, O_RDONLY);
    hold_place(2, O_RDONLY);
    const struct streams io = {stdin, stdout, stderr};
    return (int)hall_main(argc, argv, &io);
}
