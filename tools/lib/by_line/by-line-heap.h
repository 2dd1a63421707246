// Which site has an address of the heap at each moment of the trace: a part of by-line.c, which has
// read what it needs.
//
// An event is four numbers of 64 bits: LINE FROM TO SITE, by rising LINES, which is how many lines
// of the trace stand before it. From there on the addresses from FROM to before TO are the SITE's.
// The last event is the trace's end.

enum { BITS = 9, PARTS = 1 << BITS, GRANULE = 3, ROOT = 48 };  // bits of an address

struct event { uint64_t line, from, to, site; };
static struct event *events;
static size_t event_count, applied;
static uint64_t lines_taken;  // of the trace

// Memory that is of one site, or in parts; at last a granule.
struct node {
    struct node *parts;
    uint64_t site;
};
static struct node root;

static void read_heap(const char *path) {
    FILE *file = *path ? fopen(path, "r") : NULL;
    if (*path && !file) err(FAILED, "%s", path);
    for (size_t room = 0; file; event_count++) {
        if (event_count == room) events = grown(events, (room = 2 * room + 1024) * sizeof *events);
        if (fread(&events[event_count], sizeof *events, 1, file) < 1) break;
    }
    if (file) fclose(file);
}

// Gives a site what is between two places of a node's memory.
static void give(struct node *node, unsigned bits, uint64_t from, uint64_t to, uint64_t site) {
    if (!node->parts && (bits == GRANULE || (from == 0 && to >> bits))) {
        node->site = site;
        return;
    }
    if (!node->parts) {
        node->parts = grown(NULL, PARTS * sizeof *node);
        for (int i = 0; i < PARTS; i++) node->parts[i] = (struct node){NULL, node->site};
    }
    uint64_t size = UINT64_C(1) << (bits - BITS);
    for (uint64_t i = from / size, begin; (begin = i * size) < to; i++)
        give(&node->parts[i], bits - BITS, from > begin ? from - begin : 0,
             to - begin < size ? to - begin : size, site);
}

static uint32_t site_at(uint64_t address) {
    const struct node *node = &root;
    if (address >> ROOT) return 0;
    for (unsigned bits = ROOT - BITS; node->parts; bits -= BITS)
        node = &node->parts[address >> bits & (PARTS - 1)];
    return (uint32_t)node->site;
}

// How many events stand before the present line.
static size_t events_before(void) {
    static size_t count;
    while (count + 1 < event_count && events[count].line <= lines_taken) count++;
    return count;
}

static void apply_up_to(size_t count) {
    for (; applied < count; applied++)
        give(&root, ROOT, events[applied].from, events[applied].to, events[applied].site);
}

static void compare_ends(void) {
    uint64_t end = event_count ? events[event_count - 1].line : lines_taken;
    if (end != lines_taken)
        errx(FAILED, "the trace has %lu lines, and that of --heap had %lu", lines_taken, end);
}
