// Counts what arrives at a cache in `cachesim log`, for by-page and over-time.
//
//     log-counts pages CACHE BITS < LOG     'PAGE REFERENCES MISSES' for each page of 2^BITS bytes
//     log-counts steps CACHE EACH < LOG     'REFERENCES MISSES' for each step of EACH references
//
// CACHE is how the name of the cache begins. PAGE is a page's number, in hexadecimal; the pages
// come in the order of their first references. The answer is written when the log has ended.
#define _GNU_SOURCE
#include <fcntl.h>
#include <stdio.h>
#include "lines.h"
#include "log-line.h"
#include "numbers.h"

struct count { uint64_t references, misses; };
static struct numbers counts = {.size = sizeof(struct count)};  // of pages, or of steps
static bool are_pages;
static const char *cache;
static uint64_t bits, each;  // one of them is given

// A step begins when the one before has all its references.
static uint64_t present_step(void) {
    static uint64_t left, step;
    if (!left) left = each, step++;
    left--;
    return step;
}

static const char *take(const char *text) {
    struct log_line line;
    const char *next = read_log_line(text, &line);
    if (line.is_flush || !is_at(&line, cache)) return next;
    struct count *count = value_of(&counts, are_pages ? line.address >> bits : present_step());
    count->references++;
    count->misses += line.misses;
    return next;
}

static void write_counts(void) {
    for (uint32_t i = 0; i < counts.count; i++) {
        const struct count *count = (const struct count *)counts.values + i;
        if (are_pages) printf("%lx ", counts.keys[i]);
        printf("%lu %lu\n", count->references, count->misses);
    }
    if (fflush(stdout) || ferror(stdout)) err(EXIT_FAILURE, "the counts can't be written");
}

int main(int count, char **words) {
    if (count != 4) errx(EXIT_FAILURE, "this is the inner half of by-page and over-time");
    are_pages = !strcmp(words[1], "pages");
    cache = words[2];
    bits = each = strtoull(words[3], NULL, 10);
    fcntl(STDIN_FILENO, F_SETPIPE_SZ, 1 << 20);
    take_lines(take);
    write_counts();
    return EXIT_SUCCESS;
}
