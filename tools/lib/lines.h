// The lines of standard input, for what counts them.
#include <err.h>
#include <errno.h>
#include <stdlib.h>
#include <string.h>
#include <unistd.h>

enum { PIECE = 1 << 18 };  // the bytes that are read at once, and the longest line

// Has `take` called for each line, which ends in LF. It returns the next line.
static void take_lines(const char *(*take)(const char *line)) {
    static char text[PIECE + 1];
    size_t used = 0;
    for (ssize_t got = 1; got;) {
        got = read(STDIN_FILENO, text + used, PIECE - used);
        if (got < 0 && errno != EINTR) err(EXIT_FAILURE, "what is counted can't be read");
        if (got > 0) used += (size_t)got;
        if (got == 0 && used && text[used - 1] != '\n') text[used++] = '\n';
        const char *line = text, *last = memrchr(text, '\n', used);
        if (!last && used == PIECE) errx(EXIT_FAILURE, "a line is too long");
        while (last && line <= last) line = take(line);
        used -= (size_t)(line - text);
        memmove(text, line, used);
    }
}
