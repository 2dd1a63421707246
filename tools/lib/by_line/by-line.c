// Counts the references that arrive at a cache by program counter and object, for by-line.
//
//     by-line FORMAT TAKEN PLACE SHIFT OBJECTS HEAP TO LOG [TO FULL] < TRACE
//     by-line blocks SHIFT < TRACE
//     by-line shared SHIFT OBJECTS HEAP BLOCKS < TRACE
//
// It hands the trace out to each descriptor TO, where `cachesim log` reads it: LOG has what this
// writes, and FULL the same with a fully associative LRU cache at the PLACE. FORMAT is d or l, and
// TAKEN is d, i or u: what the first-level caches take. A block has 2^SHIFT bytes. Each line of the
// file OBJECTS begins with the first address of an object and the first address after it, in
// hexadecimal, by rising addresses. HEAP is a file of events (by-line-heap.h), or ''. The answer
// has a line for each pair of a program counter and an object, and then one for each two pairs of
// which one had evicted the block that the other misses:
//
//     cell PC OBJECT REFERENCES MISSES COMPULSORY CAPACITY
//     evicted CELL BY MISSES                                  the numbers of two cells, from 0
//     end
//
// PC is '-' before the first fetch, OBJECT counts from 0 or is -1. With a HEAP it goes on with the
// sites. No answer where a log goes away.
//
// The last two are for blocks that threads share (by-line-shared.h). The first writes the numbers
// of these, the second reads them from the file BLOCKS, and writes, with a line for each cell,
//
//     shared BLOCK THREAD CELL FIRST LAST READS WRITES TRUE FALSE
#define _GNU_SOURCE
#include <errno.h>
#include <fcntl.h>
#include <poll.h>
#include <signal.h>
#include <stdio.h>
#include <time.h>
#include <unistd.h>
#include "../lines.h"
#include "../log-line.h"
#include "../numbers.h"

enum { FAILED = 1, ROOM = 1 << 18, PIPE = 1 << 20 };

// ---- Objects

struct object { uint64_t from, to; };
static struct object *objects;
static uint32_t object_count;

static void read_objects(const char *path) {
    FILE *file = fopen(path, "r");
    struct object one;
    if (!file) err(FAILED, "%s", path);
    for (uint32_t room = 0; fscanf(file, "%lx %lx%*[^\n]", &one.from, &one.to) == 2;) {
        if (object_count == room) objects = grown(objects, (room = 2 * room + 64) * sizeof one);
        objects[object_count++] = one;
    }
    fclose(file);
}

// The number, from 1 on, of the last object that begins at or before an address, or 0.
static uint32_t objects_up_to(uint64_t address) {
    uint32_t low = 0, high = object_count;
    while (low < high) {
        uint32_t middle = low + (high - low) / 2;
        if (objects[middle].from <= address) low = middle + 1;
        else high = middle;
    }
    return low;
}

#include "by-line-heap.h"

// ---- Cells: what is counted for a program counter and an object

struct counter {              // the cell of a program counter's last reference, and where it holds
    uint64_t from, to;
    uint32_t cell;
};
struct cell { uint64_t references, misses, compulsory, capacity; };
static struct numbers counters = {.size = sizeof(struct counter)};
static struct numbers cells = {.size = sizeof(struct cell)};
static uint32_t counter;      // that of the last reference; 0 stands for none

static struct cell *cell_of(uint32_t number) { return (struct cell *)cells.values + number; }

static uint32_t cell_at(uint64_t address) {
    struct counter *present = (struct counter *)counters.values + counter;
    if (present->from <= address && address < present->to) return present->cell;
    uint32_t place = objects_up_to(address);
    bool is_in_one = place && address < objects[place - 1].to;
    present->from = !place ? 0 : is_in_one ? objects[place - 1].from : objects[place - 1].to;
    present->to = is_in_one ? objects[place - 1].to
                            : place < object_count ? objects[place].from : UINT64_MAX;
    if (!is_in_one) place = event_count ? object_count + 1 + site_at(address) : 0;
    if (!is_in_one && event_count) present->to = 0;  // something else may come to be there
    uint64_t key = (uint64_t)counter << 32 | place;
    return present->cell = number_of(&cells, key);
}

// ---- Blocks, and who evicted them

struct block {
    uint32_t seen;     // the number of the flush, from 1 on, after which it was referenced
    uint32_t evicted;  // the cell that evicted it and 1, or 0
};
static struct numbers blocks = {.size = sizeof(struct block)};
static struct numbers pairs = {.size = sizeof(uint64_t)};  // of cells: the misses
static uint32_t flushes = 1;

// Counts a miss, and returns whether it is the first reference to the block.
static bool count_miss(uint32_t cell, uint64_t address) {
    struct block *block = value_of(&blocks, address);
    struct cell *counts = cell_of(cell);
    bool is_first = block->seen != flushes;
    counts->misses++;
    if (is_first) {
        counts->compulsory++;
        block->evicted = 0;  // before a flush, where there was one
    } else if (block->evicted) {  // perhaps as at the miss before: a write may bring no block in
        uint64_t *misses = value_of(&pairs, (uint64_t)cell << 32 | (block->evicted - 1));
        ++*misses;
    }
    block->seen = flushes;
    return is_first;
}

// ---- References that wait for their line in a log

struct reference {
    uint64_t address;
    uint32_t number;  // of its program counter, or of its cell
    size_t events;    // how many of the heap stand before it
    bool counts;      // as a capacity miss if FULL misses; from FULL's log: whether it does
};
struct queue {
    struct reference *held;
    size_t first, last, room;  // the room is a power of two
};
static struct queue handed;    // what was handed out and has not yet come in the first log
static struct queue ahead[2];  // what has come from one log alone: one of them is empty

static bool is_empty(const struct queue *queue) { return queue->first == queue->last; }

static void push(struct queue *queue, struct reference one) {
    if (queue->last - queue->first == queue->room) {
        size_t room = queue->room ? 2 * queue->room : 1 << 16;
        struct reference *larger = grown(NULL, room * sizeof *larger);
        for (size_t i = queue->first; i < queue->last; i++)
            larger[i & (room - 1)] = queue->held[i & (queue->room - 1)];
        free(queue->held);
        queue->held = larger, queue->room = room;
    }
    queue->held[queue->last++ & (queue->room - 1)] = one;
}

// The first one, of this address.
static struct reference popped(struct queue *queue, uint64_t address) {
    if (is_empty(queue) || queue->held[queue->first & (queue->room - 1)].address != address)
        errx(FAILED, "a log is of another trace");
    return queue->held[queue->first++ & (queue->room - 1)];
}

static void meet(bool is_full, struct reference one) {
    if (is_empty(&ahead[!is_full])) {
        push(&ahead[is_full], one);
        return;
    }
    struct reference other = popped(&ahead[!is_full], one.address);
    if (one.counts && other.counts) cell_of(is_full ? other.number : one.number)->capacity++;
}

#include "by-line-trace.h"

static unsigned shift;

#include "by-line-shared.h"

// ---- The lines of a log

static const char *place;

// Takes what arrives at the place for a reference to `wanted`.
static void take_arrival(bool is_full, const struct log_line *line, uint64_t wanted) {
    bool is_first = false;
    if (is_full) {
        meet(true, (struct reference){line->address, 0, 0, line->misses});
        return;
    }
    uint32_t cell = cell_at(wanted);
    cell_of(cell)->references++;
    if (line->misses) is_first = count_miss(cell, line->address >> shift);
    if (line->evicts) {
        struct block *evicted = value_of(&blocks, line->evicted >> shift);
        evicted->evicted = cell + 1;
    }
    // what misses in the fully associative cache counts there, also where this one hits
    if (log_count > 1) meet(false, (struct reference){line->address, cell, 0, !is_first});
    else if (line->misses && !is_first) cell_of(cell)->capacity++;
}

// Takes a line. Of each reference one line, in their order, is of the first level or bypasses it.
// What the second level reads for it has the address of a whole block; what it writes, by a
// write-through or a copy-back, has its own.
static void take_line(bool is_full, const struct log_line *line) {
    static uint64_t wanted;  // the address of the reference
    bool is_here = is_at(line, place);
    if (line->is_flush) {
        flushes += is_here && !is_full;
        return;
    }
    if (!is_full && (is_at(line, "l1-") || is_at(line, "bypassed"))) {
        struct reference one = popped(&handed, line->address);
        counter = one.number, wanted = line->address;
        apply_up_to(one.events);
    }
    if (is_here) take_arrival(is_full, line, line->is_write ? line->address : wanted);
}

static void read_log(struct log *log) {
    ssize_t got = read(log->from, log->text + log->used, ROOM - log->used);
    if (got < 0 && errno != EINTR) err(FAILED, "a log can't be read");
    if (got == 0) close_end(&log->from);
    if (got <= 0) return;
    log->used += (size_t)got;
    const char *line = log->text, *last = memrchr(log->text, '\n', log->used);
    for (struct log_line one; last && line <= last; take_line(log == &logs[1], &one))
        line = read_log_line(line, &one);
    log->used -= (size_t)(line - log->text);
    memmove(log->text, line, log->used);
}

// ---- Both

static time_t shown;  // when progress was shown last, or 0

static void clear_progress(void) {
    if (shown) fputs("\r\033[K", stderr);
    shown = 0;
}

// Once in a second, on a terminal.
static void show_progress(void) {
    static time_t began;
    time_t now = time(NULL);
    if (!began) began = now;
    if (now == (shown ? shown : began) || !isatty(STDERR_FILENO)) return;
    shown = now;
    fprintf(stderr, "\r%s: %.1f million lines ", program_invocation_short_name,
            (double)lines_taken / 1e6);
}

// Waits until something can be written to a log or read from one, and does it.
static void go_on(void) {
    struct pollfd asked[4];
    for (int i = 0; i < 2; i++) {
        asked[i] = (struct pollfd){has_all(&logs[i]) ? -1 : logs[i].to, POLLOUT, 0};
        asked[2 + i] = (struct pollfd){logs[i].from, POLLIN, 0};
    }
    if (poll(asked, 4, -1) < 0) return;
    for (int i = 0; i < 2; i++) {
        if (asked[2 + i].revents) read_log(&logs[i]);
        if (asked[i].revents) write_trace(&logs[i]);
    }
}

// Reads, hands out and counts, until the trace and the logs have ended, or a log has gone away.
static void work(void) {
    while (read_trace()) {
        show_progress();
        while (!has_all(&logs[0]) || !has_all(&logs[1])) go_on();
    }
    for (int i = 0; i < log_count; i++) close_end(&logs[i].to);
    while (logs[0].from >= 0 || logs[1].from >= 0) go_on();
    clear_progress();
    if (!is_empty(&ahead[0]) || !is_empty(&ahead[1]) || !is_empty(&handed)) exit(0);
}

// ---- The whole

static void write_cells(void) {
    for (uint32_t i = 0; i < cells.count; i++) {
        const struct cell *cell = cell_of(i);
        uint32_t own = (uint32_t)(cells.keys[i] >> 32);
        if (own) printf("cell %lx", counters.keys[own]);
        else printf("cell -");
        printf(" %d %lu %lu %lu %lu\n", (int)(uint32_t)cells.keys[i] - 1, cell->references,
               cell->misses, cell->compulsory, cell->capacity);
    }
}

static void write_evictions(void) {
    for (uint32_t i = 0; i < pairs.count; i++)
        printf("evicted %lu %lu %lu\n", pairs.keys[i] >> 32, pairs.keys[i] & UINT32_MAX,
               ((uint64_t *)pairs.values)[i]);
}

static void end_answer(void) {
    puts("end");
    if (fflush(stdout) || ferror(stdout)) err(FAILED, "the counts can't be written");
}

// words: SHIFT OBJECTS HEAP BLOCKS
static void count_sharing(char **words) {
    shift = (unsigned)atoi(words[0]);
    read_objects(words[1]);
    read_heap(words[2]);
    read_shared(words[3]);
    take_lines(share_line);
    compare_ends();
    write_cells();
    write_shared();
}

// words: FORMAT TAKEN PLACE SHIFT OBJECTS HEAP TO LOG [TO FULL]
static void count_misses(char **words, int count) {
    is_lackey = *words[0] == 'l';
    takes_data = *words[1] != 'i', takes_fetches = *words[1] != 'd';
    place = words[2];
    shift = (unsigned)atoi(words[3]);
    read_objects(words[4]);
    read_heap(words[5]);
    for (char **word = words + 6; word < words + count; word += 2)
        take_log(&logs[log_count++], word[0], word[1]);
    widen(STDIN_FILENO);
    atexit(clear_progress);
    work();
    compare_ends();
    write_cells();
    write_evictions();
}

int main(int count, char **words) {
    bool is_first_pass = count == 3 && !strcmp(words[1], "blocks");
    bool is_second_pass = count == 6 && !strcmp(words[1], "shared");
    if (!is_first_pass && !is_second_pass && count < 9)
        errx(FAILED, "this is the inner half of by-line");
    signal(SIGPIPE, SIG_IGN);
    number_of(&counters, fetched);  // number 0, with an address of no instruction
    if (is_first_pass) shift = (unsigned)atoi(words[2]), find_shared();
    else if (is_second_pass) count_sharing(words + 2);
    else count_misses(words + 1, count - 1);
    end_answer();
    return 0;
}
