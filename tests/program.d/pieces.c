/* pieces FILE LENGTH..: writes the file to standard output, a pipe, in pieces of these lengths, the last of them over and over. Each piece is
 * written only when the pipe is empty, so that no read gets parts of two. It ends at once when nobody reads any more. */

#define _DEFAULT_SOURCE
#include <poll.h>
#include <sched.h>
#include <signal.h>
#include <stdio.h>
#include <stdlib.h>
#include <sys/ioctl.h>
#include <unistd.h>

static char bytes[1 << 20];

/* Waits until all that was written has been read. 0: it never will be. */
static int all_read(void)
{
    struct pollfd out = {STDOUT_FILENO, 0, 0};
    for (;;) {
        int left;
        if (ioctl(STDOUT_FILENO, FIONREAD, &left) != 0) {
            perror("pieces: no pipe");
            exit(2);
        }
        if (left == 0)
            return 1;
        if (poll(&out, 1, 0) != 0)
            return 0;
        sched_yield();
    }
}

static int usage(void)
{
    fprintf(stderr, "usage: pieces FILE LENGTH..\n");
    return 2;
}

int main(int arguments, char **argument)
{
    FILE *file = arguments < 3 ? NULL : fopen(argument[1], "rb");
    if (file == NULL)
        return usage();
    signal(SIGPIPE, SIG_IGN);
    size_t length = fread(bytes, 1, sizeof bytes, file), done = 0;
    for (int at = 2; done < length; at += at + 1 < arguments) {
        size_t piece = strtoul(argument[at], NULL, 10);
        if (piece == 0)
            return usage();
        if (piece > length - done)
            piece = length - done;
        if (!all_read() || write(STDOUT_FILENO, bytes + done, piece) != (ssize_t)piece)
            return 1;
        done += piece;
    }
    return 0;
}
