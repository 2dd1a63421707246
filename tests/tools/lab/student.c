/* A simulator of the kind that students write for the cache lab, for the tests of `grade`. It is
 * right as it stands; each name that is defined puts a mistake in, as `cc -DFIFO`. */
#include <fcntl.h>
#include <getopt.h>
#include <signal.h>
#include <stdio.h>
#include <stdlib.h>
#include <string.h>
#include <sys/stat.h>
#include <unistd.h>

/* HAS(NAME) is 1 where NAME is defined by -DNAME, and else 0, as is Linux's IS_ENABLED. */
#define COMMA_1 0,
#define SECOND(first, second, ...) second
#define IS(text) SECOND(text 1, 0, )
#define JOINED(value) IS(COMMA_##value)
#define HAS(name) JOINED(name)

typedef unsigned long long address_t;

struct line {
    int valid;
    address_t tag;
    unsigned long used, uses;
};

static struct line *lines;
static int set_bits, ways, block_bits, verbose;
static unsigned long now;
static int hits, misses, evictions, modifies;

static void say(const char *word)
{
    if (verbose)
        printf(" %s", word);
}

static void hit(struct line *line, char kind)
{
    if (!HAS(FIFO) && !(HAS(STORES_NO_USE) && kind == 'S') && !(HAS(LOADS_NO_USE) && kind == 'L'))
        line->used = HAS(YOUNGER_BY_ONE) ? line->used + 1 : now;
    line->uses++;
    hits++;
    say("hit");
}

static void miss(struct line *victim, address_t tag)
{
    misses++;
    say("miss");
    if (victim->valid || HAS(EVICTS_ALWAYS)) {
        evictions++;
        say("eviction");
        hits += HAS(EVICTION_HITS);
        misses -= HAS(EVICTION_NO_MISS);
    }
    if (HAS(STAYS) && victim->valid)
        return;
    now += HAS(TICKS_AT_MISSES);
    address_t used = HAS(NEW_IS_OLD) ? 0 : now;
    *victim = (struct line){!HAS(NEVER_VALID), tag, used, !HAS(NEW_UNUSED)};
    now += HAS(TICKS_AFTER_MISSES);
}

/* The number of a block's set. */
static address_t place(address_t address)
{
    address_t block = address >> block_bits, sets = 1ull << set_bits;
    if (HAS(TWICE_SETS))
        return set_bits ? block % (2 * set_bits) : 0;
    if (HAS(FEW_SETS))
        return block % sets % 1024;
    if (HAS(ONE_SET))
        return 0;
    if (HAS(MASK_SETS))
        return set_bits ? block & 1 << (set_bits - 1) : 0;
    if (HAS(XOR_SETS))
        return block % (2 ^ set_bits);
    if (HAS(NEXT_SETS))
        return address >> (block_bits + 1) & (sets - 1);
    if (HAS(OFFSET_KEPT))
        return address % sets;
    if (HAS(MASK_IS_S))
        return block & set_bits;
    if (HAS(XOR_MASK))
        return block & ((2 ^ set_bits) - 1);
    if (HAS(TWICE_MASK))
        return block & (2 * set_bits - 1);
    if (HAS(SHIFTED_BY_S))
        return address >> set_bits & (sets - 1);
    if (HAS(BLOCKS_OF_16))
        return (address >> 4) % sets;
    return block % sets;
}

/* Whether a line rather than another is the victim, both of which hold a block. */
static int is_victim(struct line *line, struct line *other)
{
    if (HAS(MRU))
        return line->used > other->used;
    if (HAS(LFU))
        return line->uses < other->uses;
    if (HAS(FIRST_WAY))
        return line < other;
    if (HAS(AT_RANDOM))
        return rand() & 1;
    if (HAS(SIGNED_AGE))
        return (signed char)(now - line->used) > (signed char)(now - other->used);
    return (long)line->used < (long)other->used;
}

/* The line with a clear reference bit, or with HAND the first one from the hand of the set on. */
static struct line *unused(struct line *set, struct line *end)
{
    static int hands[1 << 20];
    int *hand = HAS(HAND) ? &hands[(set - lines) / ways] : &(int){0}, count = (int)(end - set);
    if (HAS(HAND)) {
        for (; set[*hand].uses; *hand = (*hand + 1) % count)
            set[*hand].uses = 0;
        *hand = (*hand + 1) % count;
        return set + (*hand + count - 1) % count;
    }
    for (struct line *line = set; line < end; line++)
        if (!line->uses)
            return line;
    for (struct line *line = set; line < end; line++)
        line->uses = 0;
    return set;
}

static address_t tag_of(address_t address)
{
    if (HAS(TAG_WITH_SET)) /* which is right too */
        return address >> block_bits;
    if (HAS(TAG_IS_ADDRESS))
        return address;
    if (HAS(BLOCKS_OF_16))
        return address >> 4 >> set_bits;
    if (HAS(TAG_WITHOUT_SET))
        return address >> set_bits;
    if (HAS(TAG_TOO_SHORT))
        return address >> (block_bits + set_bits + 1);
    return address >> block_bits >> set_bits & (HAS(NARROW_TAG) ? 0xffffffff
        : HAS(TAG_OF_44) ? 0xfffffffffff : HAS(SHORT_TAG) ? 0xffff : HAS(BYTE_TAG) ? 0xff : ~0ull);
}

/* The lines that an array has for a set, and those of a set that are looked at. */
static int apart(void)
{
    return HAS(LINES_OF_8) ? 8 : HAS(LINES_OF_64) ? 64 : ways;
}

static int looked_at(void)
{
    int most = HAS(ONE_WAY) ? 1 : HAS(MOST_8) ? 8 : HAS(MOST_64) ? 64
        : HAS(ONE_LESS) ? ways - 1 : ways + HAS(ONE_MORE);
    return most < ways + HAS(ONE_MORE) ? most : ways + HAS(ONE_MORE);
}

static void touch(address_t address, char kind)
{
    address &= HAS(NARROW) ? 0xffffffff : HAS(MASK_OF_31) ? 0x7fffffff : ~0ull;
    address_t tag = tag_of(address);
    struct line *set = lines + place(address) * apart(), *victim = set, *end = set + looked_at();
    now += !HAS(TICKS_AT_MISSES) && !HAS(TICKS_AFTER_MISSES);
    now &= HAS(BYTE_CLOCK) ? 0xff : ~0ul;
    now = HAS(SIGNED_CLOCK) ? (unsigned long)(signed char)now : now;
    for (struct line *line = set; line < end; line++)
        if (((line->valid || HAS(NO_VALID)) && (line->tag == tag || HAS(NO_TAG)))
            || (HAS(STICKS) && hits)) {
            hit(line, kind);
            return;
        }
    if (HAS(STORES_PASS) && kind == 'S') {
        misses++;
        say("miss");
        return;
    }
    for (struct line *line = set + 1; line < end; line++)
        if (victim->valid && (!line->valid || is_victim(line, victim)))
            victim = line;
    if (victim->valid && (HAS(NRU) || HAS(HAND)))
        victim = unused(set, end);
    miss(victim, tag);
    for (struct line *line = set; HAS(FILLS_ALL) && line < end; line++)
        if (!line->valid)
            *line = *victim;
}

static void step(char kind, address_t address, int size)
{
    if ((HAS(CRASHES) && kind == 'S') || (HAS(FEW_ROOM) && set_bits > 12)
        || (HAS(NEEDS_TWO) && ways == 1))
        abort();
    if (HAS(LOOPS) && kind == 'S')
        for (;;)
            now++;
    if (verbose)
        printf(HAS(ECHOES) ? "%c  %016llX,%d" : "%c %llx,%d", kind, address, size);
    int before = hits;
    modifies += kind == 'M';
    touch(HAS(STORES_NEXT) && kind == 'S' ? address + size : address, kind == 'M' ? 'L' : kind);
    if (kind == 'M' && !HAS(FORGETS_STORE) && !(HAS(FORGETS_MISSED) && hits == before))
        touch(address, 'S');
    if (HAS(CROSSES) && (address + size - 1) >> block_bits != address >> block_bits)
        touch(address + size - 1, kind);
    if (verbose)
        printf(" \n");
}

/* What the lab's function of this name does, as its handout describes it. */
static void printSummary(int hits, int misses, int evictions)
{
    printf(HAS(OWN_ORDER) ? "misses:%2$d hits:%1$d evictions:%3$d\n"
        : "hits:%d misses:%d evictions:%d\n", hits, misses, evictions);
    if (HAS(NO_RESULTS))
        return;
    FILE *results = fopen(".csim_results", "w");
    fprintf(results, "%d %d %d\n", hits, misses, evictions);
    fclose(results);
}

/* Goes on for long after the program, in its session or in one of its own. */
static void leave_child(int is_daemon)
{
    if (fork())
        return;
    signal(SIGHUP, SIG_IGN);
    if (is_daemon && daemon(1, 1))
        exit(1);
    sleep(1000);
}

/* Has cachesim do the work. */
static void call_cachesim(char **argv)
{
    char *words[20] = {"cachesim", "csim"};
    for (int at = 1; at < 17 && argv[at]; at++)
        words[at + 1] = argv[at];
    execvp(*words, words);
    exit(1);
}

/* What a program does before its work. */
static void begin(const char *trace, char **argv)
{
    while (HAS(FLOODS))
        puts("still looking for the mistake");
    while (HAS(LOOPS_VERBOSE) && verbose)
        sleep(1);
    if (HAS(STOPS_GRADE)) {
        kill(getppid(), SIGTERM);
        pause();
    }
    if (HAS(LEAVES_CHILD) || HAS(LEAVES_DAEMON))
        leave_child(HAS(LEAVES_DAEMON));
    if (HAS(CHATTY))
        printf("\033[2Jopening %s\nhits:0 misses:0 evictions:0\nstart ", trace);
    if (HAS(CALLS_CACHESIM))
        call_cachesim(argv);
}

static void leave_junk(const char *trace)
{
    mkdir("locked", 0700);
    fclose(fopen("locked/file", "w"));
    mkfifo("pipe", 0600);
    chmod("locked", 0);
    fclose(fopen(trace, "w")); /* the trace is empty from now on */
}

/* What it does after its work. */
static void end(const char *trace)
{
    hits += HAS(COUNTS) + modifies * (HAS(MODIFIES_THRICE) + 2 * HAS(MODIFIES_FOURFOLD));
    if (HAS(COUNTS_OTHERS))
        hits = misses = evictions = 0;
    if (HAS(SHORT_COUNTS))
        hits &= 0xffff, misses &= 0xffff, evictions &= 0xffff;
    if (HAS(BYTE_COUNTS))
        hits &= 0xff, misses &= 0xff, evictions &= 0xff;
    if (HAS(SWAPS_MISSES)) {
        int count = misses;
        misses = evictions;
        evictions = count;
    }
    evictions *= !HAS(NO_EVICTIONS);
    if (HAS(SILENT))
        exit(0);
    if (HAS(SWAPS_COUNTS))
        printSummary(misses, hits, evictions);
    else
        printSummary(hits, misses, evictions);
    if (HAS(RESULTS)) {
        FILE *results = fopen(".csim_results", "w");
        fprintf(results, "%d %d %d\n", evictions, misses, hits);
        fclose(results);
    }
    if (HAS(RESULTS_PIPE)) {
        remove(".csim_results");
        mkfifo(".csim_results", 0600);
    }
    if (HAS(JUNK))
        leave_junk(trace);
    if (HAS(CRASHES_LATE)) {
        fflush(stdout);
        fputs("free(): \033[31minvalid pointer\n", stderr);
        raise(SIGSEGV);
    }
}

/* Takes an access from a line. Answers whether there is one. */
static int reads(const char *text, char *kind, address_t *address, int *size)
{
    int found = sscanf(text, " %c %llx,%d", kind, address, size);
    if (HAS(SIGNED_ADDRESS) && found == 3)
        *address = strtoll(text + 3, NULL, 16);
    if (HAS(DECIMAL_ADDRESS) && found == 3)
        *address = strtoull(text + 3, NULL, 10);
    if (HAS(FIRST_LETTER) && found == 3)
        *kind = *text;
    const char *kinds = HAS(FETCHES) ? "LSMI"
        : HAS(NO_MODIFIES) ? "LS" : HAS(NO_STORES) ? "LM" : "LSM";
    return found == 3 && strchr(kinds, *kind);
}

/* Runs the trace, keeping one line back, so that a mistake can be made with the last one. */
static void run(FILE *file)
{
    char text[100] = "", next[100], kind;
    address_t address;
    int number = 0, size;
    while (HAS(BY_FSCANF) && fscanf(file, " %c %llx,%d", &kind, &address, &size) == 3)
        if (kind != 'I')
            step(kind, address, size);
    char *whole = NULL;
    for (size_t room = 0; HAS(BY_GETLINE) && getline(&whole, &room, file) > 0;)
        if (reads(whole, &kind, &address, &size))
            step(kind, address, size);
    free(whole);
    while (fgets(next, HAS(SHORT_LINES) ? 16 : 100, file)) {
        if (reads(text, &kind, &address, &size))
            step(kind, address, size);
        number++;
        strcpy(text, next);
        if ((HAS(FIRST_LOST) && number == 1) || (HAS(FEW_LINES) && number > 65536))
            *text = 0;
        if (HAS(ENDS_AT_FETCH) && *next == 'I')
            break;
    }
    for (int times = HAS(LAST_LOST) ? 0 : HAS(LAST_TWICE) ? 2 : 1; times > 0; times--)
        if (reads(text, &kind, &address, &size))
            step(kind, address, size);
}

int main(int argc, char **argv)
{
    const char *trace = "";
    for (int option; (option = getopt(argc, argv, "vs:E:b:t:")) != -1;)
        switch (option) {
        case 'v': verbose = !HAS(NO_VERBOSE); break;
        case 's': *(HAS(SWAPS_BITS) ? &block_bits : &set_bits) = atoi(optarg); break;
        case 'E': ways = HAS(ONE_DIGIT) ? *optarg - '0' : atoi(optarg); break;
        case 'b': *(HAS(SWAPS_BITS) ? &set_bits : &block_bits) = atoi(optarg); break;
        case 't': trace = optarg; break;
        }
    if (HAS(FIXED_OPTIONS)) { /* as in: csim -s 4 -E 2 -b 4 -t FILE */
        int first = verbose ? 3 : 2;
        set_bits = atoi(argv[first]), ways = atoi(argv[first + 2]);
        block_bits = atoi(argv[first + 4]), trace = argv[first + 6];
    }
    FILE *file = fopen(trace, "r");
    if (!file)
        exit(1);
    begin(trace, argv);
    size_t count = ((size_t)(ways > apart() ? ways : apart()) << set_bits) + ways + 64;
    lines = HAS(UNCLEARED) ? malloc(count * sizeof *lines) : calloc(count, sizeof *lines);
    run(file);
    end(trace);
    return HAS(STATUS) ? 3 : 0;
}
