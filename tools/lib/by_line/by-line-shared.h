// Blocks that threads share, in a trace of `trace --threads`: a part of by-line.c, which has read
// what it needs.
//
// Each thread is taken to have a cache of its own that is never full. It loses a block when another
// thread writes there, and misses at its next access: a miss by sharing. The miss is true sharing
// if the thread, before it loses the block again, touches a byte that another has written since it
// had the block before; else it is false sharing, which other bytes alone have caused.

struct access {
    char label;
    uint64_t address;
    uint32_t thread, bytes;
};
static uint64_t lines_read;

static const char *past_number(const char *at, uint32_t *number) {
    uint64_t sum = 0;
    for (; *at >= '0' && *at <= '9' && sum <= UINT32_MAX; at++)
        sum = 10 * sum + (uint64_t)(*at - '0');
    *number = (uint32_t)sum;
    return sum <= UINT32_MAX ? at : at - 1;
}

// Reads a line, and returns the next one. One that is not of `trace --threads` ends the program.
static const char *read_access(const char *line, struct access *access) {
    const char *address = line + 2, *thread, *bytes, *end;
    lines_read++;
    access->label = *line;
    access->bytes = 1;
    if (*line < '0' || *line > '4' || line[1] != ' ')
        errx(FAILED, "line %lu is none of `trace --threads`", lines_read);
    thread = past_hexadecimal(address, &access->address);
    bytes = end = past_number(thread + (*thread == ' '), &access->thread);
    if (*bytes == ' ') end = past_number(bytes + 1, &access->bytes);
    if (thread == address || thread - address > 16 || !access->thread || *end != '\n')
        errx(FAILED, "line %lu is none of `trace --threads`", lines_read);
    return end + 1;
}

static bool is_data(const struct access *access) { return access->label <= '1'; }

// ---- Which blocks are shared

struct touched {
    uint32_t thread;  // the first
    bool by_others, is_written;
};
static struct numbers touched = {.size = sizeof(struct touched)};  // blocks

static void touch(uint64_t block, const struct access *access) {
    struct touched *one = value_of(&touched, block);
    if (!one->thread) one->thread = access->thread;
    one->by_others |= one->thread != access->thread;
    one->is_written |= access->label == '1';
}

static const char *touch_line(const char *line) {
    struct access access;
    const char *next = read_access(line, &access);
    if (!is_data(&access)) return next;
    for (uint64_t at = access.address >> shift; at <= (access.address + access.bytes - 1) >> shift;)
        touch(at++, &access);
    return next;
}

// Writes the numbers of the blocks that a thread writes and another touches.
static void find_shared(void) {
    take_lines(touch_line);
    for (uint32_t i = 0; i < touched.count; i++) {
        const struct touched *one = (const struct touched *)touched.values + i;
        if (one->by_others && one->is_written) printf("%lx\n", touched.keys[i]);
    }
}

// ---- What the threads do there

struct written { uint64_t time; uint32_t thread; };  // when, and by whom
struct shared {
    struct written last, other;  // the last write, and the last of another thread than that
    struct written *bytes;       // of each byte the last write
};
struct sharer {              // a thread at a shared block
    uint64_t last;           // its last access, or 0
    uint64_t before;         // the last one before it got the block that it has
    uint64_t pending;        // the row of the miss by which it got it and 1, while that is false
};
struct row {
    uint64_t reads, writes, true_misses, false_misses;
    uint32_t first, last;    // the bytes of the block that it touches
};
static struct numbers shareds = {.size = sizeof(struct shared)};
static struct numbers sharers = {.size = sizeof(struct sharer)};
static struct numbers rows = {.size = sizeof(struct row)};
static uint64_t moment;      // of data references, from 1 on

static void read_shared(const char *path) {
    FILE *file = fopen(path, "r");
    uint64_t block;
    if (!file) err(FAILED, "%s", path);
    while (fscanf(file, "%lx", &block) == 1) {
        struct shared *shared = value_of(&shareds, block);
        shared->bytes = zeros((size_t)1 << shift, sizeof *shared->bytes);
    }
    fclose(file);
}

static bool is_known(const struct numbers *numbers, uint64_t key) {
    return numbers->room && numbers->slots[slot_of(numbers, key)];
}

// Whether one of these bytes was written by another thread since a moment.
static bool is_new(const struct shared *shared, uint32_t first, uint32_t last, uint32_t thread,
                   uint64_t since) {
    for (uint32_t i = first; i <= last; i++)
        if (shared->bytes[i].time > since && shared->bytes[i].thread != thread) return true;
    return false;
}

static void note_write(struct shared *shared, uint32_t first, uint32_t last, uint32_t thread) {
    struct written present = {moment, thread};
    if (shared->last.thread != thread) shared->other = shared->last;
    shared->last = present;
    for (uint32_t i = first; i <= last; i++) shared->bytes[i] = present;
}

static void count_access(struct row *row, const struct access *access, uint32_t first,
                         uint32_t last) {
    if (!row->reads && !row->writes) row->first = first, row->last = last;
    if (first < row->first) row->first = first;
    if (last > row->last) row->last = last;
    if (access->label == '1') row->writes++;
    else row->reads++;
}

// Takes what an access does to the bytes of a shared block.
static void share(uint64_t block, const struct access *access, uint32_t first, uint32_t last) {
    uint32_t thread = access->thread;
    uint32_t number = number_of(&shareds, block);
    struct shared *shared = (struct shared *)shareds.values + number;
    uint32_t own = number_of(&sharers, (uint64_t)number << 32 | thread);
    struct sharer *sharer = (struct sharer *)sharers.values + own;
    uint32_t cell = cell_at((block << shift) + first);
    uint32_t at = number_of(&rows, (uint64_t)own << 32 | cell);
    struct row *row = (struct row *)rows.values + at;
    const struct written *other = shared->last.thread == thread ? &shared->other : &shared->last;
    if (sharer->last && other->time > sharer->last) {
        row->false_misses++;
        sharer->before = sharer->last, sharer->pending = (uint64_t)at + 1;
    }
    if (sharer->pending && is_new(shared, first, last, thread, sharer->before)) {
        struct row *missed = (struct row *)rows.values + sharer->pending - 1;
        missed->false_misses--, missed->true_misses++;
        sharer->pending = 0;
    }
    sharer->last = moment;
    if (access->label == '1') note_write(shared, first, last, thread);
    count_access(row, access, first, last);
}

static const char *share_line(const char *line) {
    struct access access;
    const char *next = read_access(line, &access);
    if (access.label == '2') counter = number_of(&counters, access.address);
    if (is_data(&access)) {
        uint64_t end = access.address + access.bytes - 1, mask = (UINT64_C(1) << shift) - 1;
        moment++;
        apply_up_to(events_before());
        for (uint64_t block = access.address >> shift; block <= end >> shift; block++)
            if (is_known(&shareds, block))
                share(block, &access, (uint32_t)(block == access.address >> shift
                                                     ? access.address & mask : 0),
                      (uint32_t)(block == end >> shift ? end & mask : mask));
    }
    lines_taken++;
    return next;
}

static void write_shared(void) {
    for (uint32_t i = 0; i < rows.count; i++) {
        const struct row *row = (const struct row *)rows.values + i;
        uint64_t sharer = sharers.keys[rows.keys[i] >> 32];
        printf("shared %lx %lu %lu %u %u %lu %lu %lu %lu\n", shareds.keys[sharer >> 32] << shift,
               sharer & UINT32_MAX, rows.keys[i] & UINT32_MAX, row->first, row->last, row->reads,
               row->writes, row->true_misses, row->false_misses);
    }
}
