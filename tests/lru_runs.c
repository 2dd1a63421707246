// A run of an LRU cache of one set for each power of two of lines, to compare tables and times.
//
//     lru_runs BSIZE MOST TRACE
//
// BSIZE, a power of two, is the bytes in a block; the caches have 1, 2, 4, .. lines, at most MOST,
// a power of two too. TRACE is as for one_pass.c. It is read once for all runs, which helps them.
// Each cache has a hash table with linear probing and a doubly linked list: a reference takes about
// as long in a large one as in a small one. The rows of the sweep's table go to standard output.
#define _DEFAULT_SOURCE
#include <stdint.h>
#include <stdio.h>
#include <stdlib.h>
#include <string.h>

typedef struct {
    uint64_t block;
    uint32_t older, newer;  // in order of use; line 0 is before the newest and after the oldest
} line;

static uint64_t *blocks;
static uint64_t references;

// one cache: its lines from 1 on, and a table with the line of a block, or 0
static line *lines;
static uint32_t *table, table_bits, table_mask, held, most;

static void fail(const char *fault, const char *of, int status) {
    fprintf(stderr, "%s%s\n", fault, of);
    exit(status);
}

static void *zeros(uint64_t count, size_t size) {
    void *taken = calloc(count, size);
    if (!taken) fail("out of memory", "", 1);
    return taken;
}

static inline uint32_t home_of(uint64_t block) {
    return (uint32_t)(block * 0x9E3779B97F4A7C15 >> (64 - table_bits));
}

static inline uint32_t place_of(uint64_t block) {
    uint32_t place = home_of(block);
    while (table[place] && lines[table[place]].block != block) place = (place + 1) & table_mask;
    return place;
}

// Takes a block out of the table: a later one of its run that may stand here fills the gap.
static void forget(uint64_t block) {
    uint32_t gap = place_of(block);
    for (uint32_t at = (gap + 1) & table_mask; table[at]; at = (at + 1) & table_mask) {
        uint32_t home = home_of(lines[table[at]].block);
        if (((at - home) & table_mask) >= ((at - gap) & table_mask)) {
            table[gap] = table[at];
            gap = at;
        }
    }
    table[gap] = 0;
}

static inline void unlink_line(uint32_t at) {
    lines[lines[at].newer].older = lines[at].older;
    lines[lines[at].older].newer = lines[at].newer;
}

static inline void put_newest(uint32_t at) {
    lines[at].newer = 0;
    lines[at].older = lines[0].older;
    lines[lines[0].older].newer = at;
    lines[0].older = at;
}

// Whether a block is in the cache; afterwards it is, as the newest.
static inline int use_block(uint64_t block) {
    uint32_t place = place_of(block), at = table[place];
    if (at) {
        if (lines[0].older != at) { unlink_line(at); put_newest(at); }
        return 1;
    }
    if (held < most) {
        at = ++held;
    } else {
        at = lines[0].newer;
        forget(lines[at].block);
        unlink_line(at);
        place = place_of(block);
    }
    lines[at].block = block;
    table[place] = at;
    put_newest(at);
    return 0;
}

static void run(uint64_t bsize, uint32_t assoc) {
    uint64_t hits = 0;
    for (table_bits = 2; 1u << table_bits < 2 * assoc; table_bits++) continue;
    table_mask = (1u << table_bits) - 1;
    most = assoc, held = 0;
    lines = zeros(assoc + 1, sizeof(line));
    table = zeros(table_mask + 1, sizeof(uint32_t));
    for (uint64_t i = 0; i < references; i++) hits += (uint64_t)use_block(blocks[i]);
    uint64_t misses = references - hits;
    printf("%lu,1,%u,%lu,%lu,%lu,%lu\n", bsize, assoc, bsize * assoc, hits, misses, misses - held);
    free(lines);
    free(table);
}

static int digit_of(int letter) {
    if (letter >= '0' && letter <= '9') return letter - '0';
    letter |= 0x20;
    return letter >= 'a' && letter <= 'f' ? letter - 'a' + 10 : -1;
}

static void read_trace(const char *name, int block_bits) {
    FILE *file = fopen(name, "r");
    if (!file) { perror(name); exit(1); }
    uint64_t room = 0, address = 0;
    for (int letter = getc_unlocked(file); letter != EOF; letter = getc_unlocked(file)) {
        if (letter < '0' || letter > '2' || getc_unlocked(file) != ' ') fail("bad label", "", 1);
        for (address = 0; (letter = digit_of(getc_unlocked(file))) >= 0;)
            address = address << 4 | (uint64_t)letter;
        if (references == room) {
            room = room ? 2 * room : 1 << 16;
            blocks = realloc(blocks, room * sizeof(uint64_t));
            if (!blocks) fail("out of memory", "", 1);
        }
        blocks[references++] = address >> block_bits;
    }
    fclose(file);
}

int main(int count, char **words) {
    if (count != 4) fail("lru_runs BSIZE MOST TRACE", "", 2);
    uint64_t bsize = strtoull(words[1], NULL, 10), ways = strtoull(words[2], NULL, 10);
    if (!bsize || !ways || ways > 1 << 22) fail("bad number", "", 2);
    read_trace(words[3], __builtin_ctzll(bsize));
    puts("bsize,sets,assoc,size,hits,misses,evictions");
    for (uint32_t assoc = 1; assoc <= ways; assoc *= 2) run(bsize, assoc);
    return 0;
}
