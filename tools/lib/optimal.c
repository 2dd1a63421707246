// optimal's fast half: the counts of caches whose replacement knows the future, over a log.
//
//     optimal CACHE CACHES BLOCKS USES < LOG
//
// The log is of one CACHE that holds one block, of the least block size of all, so that a hit is a
// reference to the block before. The other words are descriptors of files. That of the CACHES has
// the least block size in its first line, and then a line 'bsize,sets,assoc' for each cache, by
// rising bsize, then sets, then assoc. The other two are empty, and get what is kept of each
// reference. Memory is taken for each different block and for each line of a cache.
//
// Optimal replacement keeps the blocks that are referenced soonest. It is a stack algorithm
// (Mattson and others 1970): the blocks of a set stand in a list, of which E ways hold the first E.
// So one list for each set gives the counts of all numbers of ways.
#define _GNU_SOURCE
#include <inttypes.h>
#include <signal.h>
#include <stdio.h>
#include <sys/prctl.h>
#include "lines.h"
#include "log-line.h"
#include "numbers.h"

enum { FAILED = 1, HELD = 1 << 16, MOST_WAYS = 65536 };
#define NEVER UINT32_MAX

// ---- The references

// They are in two files, of which a piece is in memory: of each reference the block, of the least
// size, without those that are the block before; and when that block is referenced next, before a
// flush, or NEVER.
static struct column {
    int file;
    size_t size;
    void *piece;
} blocks = {.size = sizeof(uint64_t)}, next_use = {.size = sizeof(uint32_t)};

static uint32_t *flushes;  // how many references there were before each flush, and at the end
static uint32_t count, flush_count;
static uint64_t references;

static uint64_t *block_at(uint32_t at) { return (uint64_t *)blocks.piece + at % HELD; }
static uint32_t *use_at(uint32_t at) { return (uint32_t *)next_use.piece + at % HELD; }

static ssize_t put_bytes(int file, void *from, size_t size, off_t place) {
    return pwrite(file, from, size, place);
}

// Moves the piece with some reference: by pread from its file, by put_bytes there.
static void move_piece(ssize_t (*move)(int, void *, size_t, off_t), const struct column *column,
                       uint32_t at) {
    const uint32_t first = at - at % HELD;
    size_t left = (count - first < HELD ? count - first : HELD) * column->size;
    off_t place = (off_t)first * (off_t)column->size;
    for (char *from = column->piece; left;) {
        ssize_t moved = move(column->file, from, left, place);
        if (moved <= 0) err(FAILED, "the references can't be kept");
        from += moved, place += moved, left -= (size_t)moved;
    }
}

static void put_block(uint64_t block) {
    if (count == NEVER - 1)
        errx(FAILED, "too many references: cut the trace, or take larger blocks");
    *block_at(count++) = block;
    if (count % HELD == 0) move_piece(put_bytes, &blocks, count - 1);
}

static void put_flush(void) {
    static size_t room;
    if (flush_count && flushes[flush_count - 1] == count) return;
    if (flush_count == room) flushes = grown(flushes, (room = 2 * room + 16) * sizeof *flushes);
    flushes[flush_count++] = count;
}

static const char *cache;
static unsigned least_bits;  // of the least block size

static const char *take(const char *text) {
    struct log_line line;
    const char *next = read_log_line(text, &line);
    if (!is_at(&line, cache)) return next;
    if (line.is_flush) put_flush();
    else references++;
    if (line.misses) put_block(line.address >> least_bits);
    return next;
}

// For blocks that are larger than the least by so many bits.
static void find_next(unsigned bits) {
    struct numbers uses = {.size = sizeof(uint32_t)};  // of blocks: when each is next, and 1; or 0
    uint32_t end = count;
    for (uint32_t at = count, left = flush_count; at-- > 0;) {
        if (at == count - 1 || at % HELD == HELD - 1) move_piece(pread, &blocks, at);
        while (left && flushes[left - 1] > at) end = flushes[--left];
        uint32_t *use = value_of(&uses, *block_at(at) >> bits), next = *use - 1;
        *use_at(at) = next < end ? next : NEVER;
        *use = at + 1;
        if (at % HELD == 0) move_piece(put_bytes, &next_use, at);
    }
    free(uses.keys);
    free(uses.slots);
    free(uses.values);
}

// ---- The lists

// The blocks of a set are told apart by when they are referenced next, which is now for the one
// that is referenced. It goes to the front. The block that was there goes on to the next place, and
// from each place the one of the two goes on that is referenced later, up to where the first was.
static uint32_t place_in(uint32_t *list, uint32_t *length, uint32_t ways, uint32_t now) {
    uint32_t moved = list[0], at = 0;
    list[0] = *use_at(now);
    if (*length && moved == now) return 0;
    while (++at < *length) {
        uint32_t here = list[at];
        if (here == now) {
            list[at] = moved;
            return at;
        }
        list[at] = here < moved ? here : moved;
        moved = here < moved ? moved : here;
    }
    if (!*length) *length = 1;
    else if (*length < ways) list[(*length)++] = moved;
    return ways;
}

struct set { uint32_t length, flushes; };

// The references whose block is at each place, and the sets that were left with each length.
static uint64_t found[MOST_WAYS + 1], left_with[MOST_WAYS + 1];

static void run(unsigned bits, uint64_t set_count, uint32_t ways) {
    uint32_t *lists = zeros(set_count * ways, sizeof *lists);
    struct set *sets = zeros(set_count, sizeof *sets);
    memset(found, 0, sizeof found);
    memset(left_with, 0, sizeof left_with);
    for (uint32_t now = 0, before = 0; now < count; now++) {
        if (now % HELD == 0) move_piece(pread, &blocks, now), move_piece(pread, &next_use, now);
        while (flushes[before] <= now) before++;
        uint64_t number = *block_at(now) >> bits & (set_count - 1);
        struct set *set = &sets[number];
        if (set->flushes != before) {
            left_with[set->length]++;
            *set = (struct set){0, before};
        }
        found[place_in(lists + number * ways, &set->length, ways, now)]++;
    }
    for (uint64_t number = 0; number < set_count; number++) left_with[sets[number].length]++;
    free(lists);
    free(sets);
}

// ---- The caches

struct cache { uint64_t bsize, sets, ways; };

static void write_rows(const struct cache *first, const struct cache *end, uint64_t same) {
    uint64_t hits = same, filled = 0, longer = 0;
    uint32_t ways = 0;
    for (uint32_t length = 0; length <= MOST_WAYS; length++) longer += left_with[length];
    for (const struct cache *each = first; each < end; each++) {
        for (; ways < each->ways; ways++) {
            hits += found[ways];
            longer -= left_with[ways];  // now the sets with more blocks than so many
            filled += longer;
        }
        const uint64_t row[] = {each->bsize, each->sets, each->ways,
                                each->bsize * each->sets * each->ways,
                                hits, references - hits, references - hits - filled};
        for (size_t at = 0; at < sizeof row / sizeof *row; at++)
            printf("%s%" PRIu64, at ? "," : "", row[at]);
        putchar('\n');
    }
}

static bool is_other(const struct cache *one, const struct cache *other) {
    return one->bsize != other->bsize || one->sets != other->sets;
}

// All caches of one block size and number of sets, and so on.
static void run_all(const struct cache *first, const struct cache *end, uint64_t least) {
    uint64_t bsize = 0;
    for (const struct cache *last = first; first < end; first = last) {
        while (last < end && !is_other(first, last)) last++;
        unsigned bits = (unsigned)__builtin_ctzll(first->bsize / least);
        if (bsize != first->bsize) find_next(bits);
        bsize = first->bsize;
        run(bits, first->sets, (uint32_t)last[-1].ways);
        write_rows(first, last, references - count);
    }
}

int main(int words, char **word) {
    struct cache *caches = NULL, each;
    size_t rows = 0, room = 0;
    uint64_t least;
    if (words != 5) errx(2, "this is the inner half of optimal");
    prctl(PR_SET_PDEATHSIG, SIGKILL);
    FILE *file = fdopen(atoi(word[2]), "r");
    if (!file || fscanf(file, "%" SCNu64, &least) != 1 || !least)
        errx(FAILED, "the caches can't be read");
    const char *row = "%" SCNu64 ",%" SCNu64 ",%" SCNu64;
    while (fscanf(file, row, &each.bsize, &each.sets, &each.ways) == 3) {
        if (rows == room) caches = grown(caches, (room = 2 * room + 64) * sizeof *caches);
        caches[rows++] = each;
    }
    blocks.file = atoi(word[3]), blocks.piece = zeros(HELD, blocks.size);
    next_use.file = atoi(word[4]), next_use.piece = zeros(HELD, next_use.size);
    cache = word[1];
    least_bits = (unsigned)__builtin_ctzll(least);
    take_lines(take);
    put_flush();
    if (count % HELD) move_piece(put_bytes, &blocks, count - 1);
    run_all(caches, caches + rows, least);
    if (fflush(stdout) || ferror(stdout)) err(FAILED, "write failed");
    return 0;
}
