// A line of `cachesim log`, for what counts its references. There are three kinds:
//
//     l1-d 1 20 miss eviction 40 dirty     what arrives at a cache, with its outcome
//     l2-u flush 3
//     memory 0 20                          or bypassed: no cache takes it
#include <stdbool.h>
#include <stdint.h>
#include <string.h>
#include "hexadecimal.h"

struct log_line {
    const char *place;          // its first word
    bool is_flush, is_write, misses, evicts;
    uint64_t address, evicted;  // of the reference, and of the evicted block
};

static inline const char *past_word(const char *at) {
    while (*at > ' ') at++;
    return *at == ' ' ? at + 1 : at;
}

// Reads a line, which ends in LF, and returns the next one.
static inline const char *read_log_line(const char *line, struct log_line *read) {
    const char *at = past_word(line);
    *read = (struct log_line){.place = line, .is_flush = *at == 'f', .is_write = *at == '1'};
    if (!read->is_flush) {
        at = past_word(past_hexadecimal(past_word(at), &read->address));
        read->misses = *at == 'm';
        at = past_word(at);
        read->evicts = *at == 'e';
        if (read->evicts) at = past_hexadecimal(past_word(at), &read->evicted);
    }
    return (const char *)rawmemchr(at, '\n') + 1;
}

// Whether a line is of the place that begins so, as l1- does for all caches of the first level.
static inline bool is_at(const struct log_line *line, const char *place) {
    return !strncmp(line->place, place, strlen(place));
}
