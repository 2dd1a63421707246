// second-level's fast half: what comes to memory in `cachesim log`, and flushes, as a din trace.
//
//     second-level NAME < LOG      NAME is that of the tool, for messages
#define _GNU_SOURCE
#include "filter.h"

enum { PIECE = 1 << 16, CACHE = 4 }; // the bytes that are read at once; those of a cache's name

static const char *name, writing[] = "standard output: write failed";

static _Noreturn void fail(const char *text) {
    fprintf(stderr, "%s: %s\n", name, text);
    exit(1);
}

static void put(const char *line, size_t length) {
    memcpy(next_line(name, writing), line, length);
    output.used += length;
}

static void take_line(const char *at, size_t length) {
    static const char memory[] = "memory ", flush[] = " flush ";
    static char first[CACHE]; // which has the first line of each flush; there is one for each cache
    const size_t before = sizeof memory - 1;
    if (length > before && !memcmp(at, memory, before))
        put(at + before, length - before);
    else if (length > CACHE + sizeof flush - 1 && !memcmp(at + CACHE, flush, sizeof flush - 1)) {
        if (!*first) memcpy(first, at, CACHE);
        if (!memcmp(first, at, CACHE)) put("4 0\n", sizeof "4 0\n" - 1);
    }
}

int main(int count, char **words) {
    static char text[2 * PIECE];
    size_t held = 0;
    ssize_t got;
    if (count != 2) return 2;
    name = words[1];
    begin_filter();
    while ((got = read_input(text + held, PIECE)) > 0) {
        char *at = text, *end = text + held + got;
        for (char *last; (last = memchr(at, '\n', (size_t)(end - at))); at = last + 1)
            take_line(at, (size_t)(last + 1 - at));
        held = (size_t)(end - at);
        if (held >= PIECE) fail("what cachesim writes is not a log");
        memmove(text, at, held);
    }
    if (got < 0) fail("the log: read failed");
    finish(name, writing);
}
