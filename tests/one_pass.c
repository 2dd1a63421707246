// The one-pass sweep by hand, to compare tables and times with: the same lists as the program's.
//
//     one_pass [--each] [--full] BSIZE SETS ASSOC SIZE TRACE
//
// Each of the four is LOWEST-GREATEST, in plain decimal numbers. With --each every profile looks at
// every reference, and none is left out where another one decides for it. With --full a row also
// has the misses by kind, and the copybacks. TRACE is a din trace of labels 0 to 2, a space after
// each, and 1 to 16 digits up to the line's end. The table goes to standard output.
#define _DEFAULT_SOURCE
#include <fcntl.h>
#include <stdint.h>
#include <stdio.h>
#include <stdlib.h>
#include <string.h>
#include <unistd.h>

enum { BUFFER = 1 << 16, PAIRS = 21 * 21, MOST_LINES = 1 << 22 };

// the kinds of references, by their labels
enum { READ, WRITE, FETCH, KINDS };

typedef struct { uint64_t lowest, greatest; } range;

// The recency lists of all sets for one block size and one number of sets, and where references
// were found in them.
typedef struct {
    uint64_t bsize, sets, depth;
    int block_bits;
    uint64_t *lists;       // a set's blocks, the most recent first, from set * depth on
    uint32_t *lengths;     // of each set's list
    uint64_t *distances[KINDS];  // references found at a place; those in front are counted last
    uint64_t *fills;       // references not found in a list of a length
    uint64_t missed[KINDS];      // references not found
    int next;              // the first profile after it whose front block need not be this one's
    // Beside each block of a list: the most ways with which a cache has no change to write back.
    // Of 0 ways none has the block, so 0 says that all have written to it.
    uint32_t *cleans;
    uint64_t *copybacks;   // by ways: those more than with one way less
} profile;

static range bsizes, sets_range, assocs, sizes;
static profile profiles[PAIRS];
static int profile_count, full;
// Without --full all are counted as reads.
static uint64_t references[KINDS];

static void fail(const char *fault, const char *of, int status) {
    fprintf(stderr, "%s%s\n", fault, of);
    exit(status);
}

static range range_of(const char *text) {
    range r;
    if (sscanf(text, "%lu-%lu", &r.lowest, &r.greatest) != 2) fail("not a range: ", text, 2);
    return r;
}

static int is_valid(uint64_t bsize, uint64_t sets, uint64_t assoc) {
    uint64_t size = bsize * sets * assoc;
    return assocs.lowest <= assoc && assoc <= assocs.greatest && assoc * sets <= MOST_LINES
        && sizes.lowest <= size && size <= sizes.greatest;
}

static void *zeros(uint64_t count, size_t size) {
    void *taken = calloc(count ? count : 1, size);
    if (!taken) fail("out of memory", "", 1);
    return taken;
}

static void make_profile(uint64_t bsize, uint64_t sets) {
    uint64_t depth = assocs.greatest;
    while (depth >= assocs.lowest && depth && !is_valid(bsize, sets, depth)) depth--;
    if (!depth || depth < assocs.lowest) return;
    profile *p = &profiles[profile_count++];
    *p = (profile){.bsize = bsize, .sets = sets, .depth = depth};
    p->block_bits = __builtin_ctzll(bsize);
    p->lists = zeros(sets * depth, sizeof(uint64_t));
    p->lengths = zeros(sets, sizeof(uint32_t));
    p->fills = zeros(depth + 1, sizeof(uint64_t));
    for (int kind = 0; kind < KINDS; kind++) p->distances[kind] = zeros(depth, sizeof(uint64_t));
    if (!full) return;
    p->cleans = zeros(sets * depth, sizeof(uint32_t));
    p->copybacks = zeros(depth + 1, sizeof(uint64_t));
}

// Brings a block to the front of its set's list: each entry moves one index on, up to where the
// block was. Whether it was in front.
static inline int feed(profile *p, uint64_t address) {
    uint64_t block = address >> p->block_bits, set = block & (p->sets - 1), carried = block;
    uint64_t *list = p->lists + set * p->depth;
    uint32_t length = p->lengths[set];
    if (length && list[0] == block) return 1;
    for (uint32_t place = 0; place < length; place++) {
        uint64_t other = list[place];
        list[place] = carried;
        carried = other;
        if (other == block) { p->distances[READ][place]++; return 0; }
    }
    p->fills[length]++;
    p->missed[READ]++;
    if (length < p->depth) { list[length] = carried; p->lengths[set] = length + 1; }
    return 0;
}

// Counts a copyback in the caches of more than `clean` and at most `ways` ways.
static inline void copy_back(profile *p, uint32_t clean, uint32_t ways) {
    if (clean >= ways) return;
    p->copybacks[clean]++;
    p->copybacks[ways]--;
}

// The same with what a full table needs. A block at a place was evicted from the caches of as many
// ways. Whether it was in front, and nothing is to be marked: then it is so in each profile that
// this one decides for.
static inline int feed_full(profile *p, uint64_t address, int kind) {
    uint64_t block = address >> p->block_bits, set = block & (p->sets - 1);
    uint64_t *list = p->lists + set * p->depth;
    uint32_t *cleans = p->cleans + set * p->depth;
    uint32_t length = p->lengths[set], place = 0, clean;
    if (length && list[0] == block) {
        if (kind != WRITE || !cleans[0]) return 1;
        cleans[0] = 0;
        return 0;
    }
    while (place < length && list[place] != block) place++;
    if (place < length) {
        p->distances[kind][place]++;
        copy_back(p, cleans[place], place);
        clean = cleans[place] > place ? cleans[place] : place;
    } else {
        p->fills[length]++;
        p->missed[kind]++;
        clean = p->depth;
        if (length < p->depth) p->lengths[set] = length + 1;
        else copy_back(p, cleans[--place], length);
    }
    memmove(list + 1, list, place * sizeof *list);
    memmove(cleans + 1, cleans, place * sizeof *cleans);
    list[0] = block;
    cleans[0] = kind == WRITE ? 0 : clean;
    return 0;
}

// Copies back what caches have evicted that are too small for it, where it was not used again.
static void copy_back_evicted(profile *p) {
    for (uint64_t set = 0; set < p->sets; set++)
        for (uint32_t place = 0; place < p->lengths[set]; place++)
            copy_back(p, p->cleans[set * p->depth + place], place);
}

// What was used last in its set was so with more sets of the same block size, and with one set with
// all larger blocks. With `each` no profile decides for another.
static void link_profiles(int each) {
    for (int i = 0; i < profile_count; i++) {
        profile *own = &profiles[i];
        int next = i + 1;
        while (!each && next < profile_count
               && (own->sets == 1 || profiles[next].bsize == own->bsize))
            next++;
        own->next = next;
    }
}

static void count_fronts(profile *p) {
    for (int kind = 0; kind < KINDS; kind++) {
        uint64_t others = p->missed[kind];
        for (uint64_t place = 1; place < p->depth; place++) others += p->distances[kind][place];
        p->distances[kind][0] = references[kind] - others;
    }
}

static int8_t digit_of[256];

// The address in a line, which ends at an LF.
static inline uint64_t address_in(const unsigned char *line) {
    const unsigned char *first = line + 2, *at = first;
    uint64_t address = 0;
    if (line[0] < '0' || line[0] > '2' || line[1] != ' ') fail("bad label", "", 1);
    for (; digit_of[*at] >= 0; at++) address = address << 4 | (uint64_t)digit_of[*at];
    if (at == first || at - first > 16 || *at != '\n') fail("bad address", "", 1);
    return address;
}

static inline void show(uint64_t address) {
    references[READ]++;
    for (int i = 0; i < profile_count;)
        i = feed(&profiles[i], address) ? profiles[i].next : i + 1;
}

static inline void show_full(uint64_t address, int kind) {
    references[kind]++;
    for (int i = 0; i < profile_count;)
        i = feed_full(&profiles[i], address, kind) ? profiles[i].next : i + 1;
}

static void read_trace(const char *name) {
    static unsigned char buffer[BUFFER];
    memset(digit_of, -1, sizeof digit_of);
    const unsigned char *lower = (const unsigned char *)"0123456789abcdef";
    const unsigned char *upper = (const unsigned char *)"0123456789ABCDEF";
    for (int8_t d = 0; d < 16; d++) digit_of[lower[d]] = digit_of[upper[d]] = d;
    int file = open(name, O_RDONLY);
    if (file < 0) { perror(name); exit(1); }
    size_t held = 0;
    for (ssize_t came; (came = read(file, buffer + held, BUFFER - held)) > 0;) {
        unsigned char *at = buffer, *end = buffer + held + came, *line_end;
        while ((line_end = memchr(at, '\n', (size_t)(end - at)))) {
            uint64_t address = address_in(at);
            if (full) show_full(address, at[0] - '0');
            else show(address);
            at = line_end + 1;
        }
        held = (size_t)(end - at);
        memmove(buffer, at, held);
    }
}

static void write_rows(const profile *p) {
    uint64_t hits[KINDS] = {0}, filled = 0, copied = 0;
    for (uint64_t assoc = 1; assoc <= p->depth; assoc++) {
        uint64_t all_hits = 0, misses = 0, missed[KINDS];
        for (int kind = 0; kind < KINDS; kind++) {
            hits[kind] += p->distances[kind][assoc - 1];
            missed[kind] = references[kind] - hits[kind];
            all_hits += hits[kind];
            misses += missed[kind];
        }
        filled += p->fills[assoc - 1];
        if (full) copied += p->copybacks[assoc - 1];
        if (!is_valid(p->bsize, p->sets, assoc)) continue;
        uint64_t size = p->bsize * p->sets * assoc;
        printf("%lu,%lu,%lu,%lu,%lu,%lu,%lu", p->bsize, p->sets, assoc, size, all_hits, misses,
               misses - filled);
        if (full)
            printf(",%lu,%lu,%lu,%lu", missed[FETCH], missed[READ], missed[WRITE], copied);
        putchar('\n');
    }
}

int main(int count, char **words) {
    int each = 0, at = 1;
    for (; at < count && words[at][0] == '-'; at++) {
        if (!strcmp(words[at], "--each")) each = 1;
        else if (!strcmp(words[at], "--full")) full = 1;
        else break;
    }
    if (count - at != 5) fail("one_pass [--each] [--full] BSIZE SETS ASSOC SIZE TRACE", "", 2);
    words += at;
    bsizes = range_of(words[0]), sets_range = range_of(words[1]);
    assocs = range_of(words[2]), sizes = range_of(words[3]);
    for (uint64_t bsize = bsizes.lowest; bsize <= bsizes.greatest; bsize *= 2)
        for (uint64_t sets = sets_range.lowest; sets <= sets_range.greatest; sets *= 2)
            make_profile(bsize, sets);
    link_profiles(each);
    read_trace(words[4]);
    fputs("bsize,sets,assoc,size,hits,misses,evictions", stdout);
    puts(full ? ",fetch-misses,read-misses,write-misses,copybacks" : "");
    for (profile *p = profiles; p < profiles + profile_count; p++) {
        count_fronts(p);
        if (full) copy_back_evicted(p);
        write_rows(p);
    }
    return 0;
}
