// A plugin of QEMU's user emulation: puts references into trace-run's memory (trace-memory.h).
//
//     qemu-x86_64 -plugin out/trace-plugin.so[,map=FILE][,from=HEX][,to=HEX][,during=HEX]
//         [,heap=on],memory=FD PROGRAM ARGS..
//
// trace-run starts QEMU so, FD being the memory's descriptor; trace has the help. FILE gets what
// was loaded where. HEX is how far a function is behind the start of the program's code. With
// heap=on it has trace-heap.so tell of the heap. No descriptor is kept: the program may close those
// that it doesn't know, and open its own files under their numbers.
#include <errno.h>
#include <limits.h>
#include <pthread.h>
#include <stddef.h>
#include <stdio.h>
#include <stdlib.h>
#include <string.h>
#include <sys/mman.h>
#include <unistd.h>
#include "trace-memory.h"

#pragma GCC diagnostic ignored "-Wunused-parameter"  // QEMU's calls tell more than is used here

// ---- What is used of the interface for plugins: Debian ships no header of it

#define EXPORTED __attribute__((visibility("default")))

struct qemu_plugin_tb;
struct qemu_plugin_insn;
typedef uint64_t plugin_id;
enum registers { NO_REGISTERS };
enum way { READ = 1, WRITE = 2, BOTH = 3 };
struct qemu_info;

void qemu_plugin_register_vcpu_tb_trans_cb(plugin_id, void (*)(plugin_id, struct qemu_plugin_tb *));
void qemu_plugin_register_vcpu_insn_exec_cb(struct qemu_plugin_insn *,
                                            void (*)(unsigned cpu, void *), enum registers, void *);
void qemu_plugin_register_vcpu_mem_cb(
    struct qemu_plugin_insn *, void (*)(unsigned cpu, uint32_t access, uint64_t address, void *),
    enum registers, enum way, void *);
void qemu_plugin_register_vcpu_syscall_cb(
    plugin_id, void (*)(plugin_id, unsigned cpu, int64_t number, uint64_t, uint64_t, uint64_t,
                        uint64_t, uint64_t, uint64_t, uint64_t, uint64_t));
void qemu_plugin_register_atexit_cb(plugin_id, void (*)(plugin_id, void *), void *);
size_t qemu_plugin_tb_n_insns(const struct qemu_plugin_tb *);
struct qemu_plugin_insn *qemu_plugin_tb_get_insn(const struct qemu_plugin_tb *, size_t);
uint64_t qemu_plugin_insn_vaddr(const struct qemu_plugin_insn *);
void *qemu_plugin_insn_haddr(const struct qemu_plugin_insn *);
__attribute__((weak)) size_t qemu_plugin_insn_size(const struct qemu_plugin_insn *);
__attribute__((weak)) char *qemu_plugin_insn_disas(const struct qemu_plugin_insn *);
bool qemu_plugin_mem_is_store(uint32_t access);
unsigned qemu_plugin_mem_size_shift(uint32_t access);
// from QEMU 7.1 on; it knows an answer while code is translated
__attribute__((weak)) uint64_t qemu_plugin_start_code(void);

// QEMU 9 and later, which have the call below, want a version from 2 on; all else is the same here.
EXPORTED int qemu_plugin_version = 1;
__attribute__((weak)) void *qemu_plugin_scoreboard_new(size_t);
__attribute__((constructor)) static void choose_version(void) {
    if (qemu_plugin_scoreboard_new) qemu_plugin_version = 2;
}

static struct memory *memory;
static bool tells_bytes;

// ---- The part of the run that is traced, from one function to another

#define NOWHERE UINT64_MAX
static uint64_t from = NOWHERE, to = NOWHERE;  // how far behind the start of the program's code
static _Atomic bool in_part;                   // one for all threads

static void on_from(unsigned cpu, void *own) { in_part = memory->began = true; }
static void on_to(unsigned cpu, void *own) { in_part = false; }

// ---- Or the calls of one function: in each thread from its first instruction to where it returns

static uint64_t during = NOWHERE;
struct step { uint64_t begin, end; bool calls; };  // run at one go; whether it ends with a call
static __thread struct step last;
static __thread uint64_t back;                     // where the outermost call returns to
static __thread unsigned depth;                    // how many calls, one in another, return there

static void on_step(unsigned cpu, void *own) {
    const struct step *step = own;
    if (depth && step->begin == back) depth--;
    if (step->begin - qemu_plugin_start_code() == during && (last.calls || !depth)) {
        if (!depth) back = last.end;
        if (back == last.end) depth++;
        memory->began = true;
        if (!last.calls) memory->jumped = true;
    }
    last = *step;
}

// The words of x86, arm and aarch64, and riscv.
static bool is_call(const struct qemu_plugin_insn *instruction) {
    static const char *calls[] = {"call", "callq", "calll", "bl", "blr", "blx", "jal", "jalr"};
    char *text = qemu_plugin_insn_disas(instruction), *rest = text;
    char *word = text ? strsep(&rest, " \t") : "";
    bool is = false;
    while (rest && (!strcmp(word, "bnd") || !strcmp(word, "notrack"))) word = strsep(&rest, " \t");
    for (size_t i = 0; i < sizeof calls / sizeof *calls; i++) is |= !strcmp(word, calls[i]);
    free(text);
    return is;
}

static void watch_for_calls(struct qemu_plugin_tb *block, size_t count) {
    struct qemu_plugin_insn *first = qemu_plugin_tb_get_insn(block, 0);
    struct qemu_plugin_insn *final = qemu_plugin_tb_get_insn(block, count - 1);
    uint64_t end = qemu_plugin_insn_vaddr(final) + qemu_plugin_insn_size(final);
    struct step *step = malloc(sizeof *step);  // QEMU doesn't tell when it is no longer of use
    if (!step) abort();
    *step = (struct step){qemu_plugin_insn_vaddr(first), end, is_call(final)};
    qemu_plugin_register_vcpu_insn_exec_cb(first, on_step, NO_REGISTERS, step);
}

static bool has_bounds(void) { return from != NOWHERE || to != NOWHERE || during != NOWHERE; }

// Has the part begin or end before an instruction's fetch: QEMU calls what is registered in order.
static void watch_for_bounds(struct qemu_plugin_insn *instruction, uint64_t address) {
    if (!has_bounds()) return;
    uint64_t distance = address - qemu_plugin_start_code();
    if (distance == to)
        qemu_plugin_register_vcpu_insn_exec_cb(instruction, on_to, NO_REGISTERS, NULL);
    if (distance == from)
        qemu_plugin_register_vcpu_insn_exec_cb(instruction, on_from, NO_REGISTERS, NULL);
}

// ---- The blocks of a thread

static pthread_mutex_t lock = PTHREAD_MUTEX_INITIALIZER;
static bool left_out;  // this is a forked child
static __thread struct block *mine __attribute__((tls_model("initial-exec")));

static void hand_over(void) {
    if (!mine) return;
    pthread_mutex_lock(&lock);
    uint32_t number = atomic_load(&memory->handed_over);
    memory->order[number % BLOCKS] = (uint8_t)(mine - memory->blocks);
    atomic_store(&memory->handed_over, number + 1);
    pthread_mutex_unlock(&lock);
    sem_post(&memory->full);
    mine = NULL;
}

static struct block *next_block(void) {
    static _Atomic uint32_t threads;
    static __thread uint32_t thread;
    hand_over();
    if (left_out) return NULL;
    while (sem_wait(&memory->empty)) continue;  // a signal came
    pthread_mutex_lock(&lock);
    int number = __builtin_ctzll(atomic_load(&memory->empty_ones));
    atomic_fetch_and(&memory->empty_ones, ~(UINT64_C(1) << number));
    pthread_mutex_unlock(&lock);
    if (!thread) thread = ++threads;
    memory->blocks[number].thread = thread;
    return mine = &memory->blocks[number];
}

// whether what runs is trace-heap.c's business, and no reference
static __thread bool is_quiet __attribute__((tls_model("initial-exec")));

static inline void put(char label, uint64_t address, uint8_t bytes) {
    if (!atomic_load_explicit(&in_part, memory_order_relaxed) && !depth) return;
    if (is_quiet) return;
    struct block *block = mine;
    if (!block || atomic_load_explicit(&block->used, memory_order_relaxed) == REFERENCES)
        block = next_block();
    if (!block) return;
    uint32_t at = atomic_load_explicit(&block->used, memory_order_relaxed);
    block->label[at] = label;
    block->address[at] = address;
    block->bytes[at] = bytes;
    atomic_store_explicit(&block->used, at + 1, memory_order_release);
}

#include "trace-heap-plugin.h"

// ---- The map: as /proc/PID/maps, at the program's own addresses, which QEMU may have moved

enum { MAPPINGS = 4096 };
static const char *map_name;  // NULL where no map is wanted
static struct { uint64_t from, to; } mapped[MAPPINGS];  // in QEMU's addresses
static unsigned mapped_count;
static bool has_stack;
static bool lacks_lines;     // they could not be written
static uint64_t first_data;  // where the program's very first data reference was: in its stack

static bool is_mapped(uint64_t address) {
    for (unsigned i = 0; i < mapped_count; i++)
        if (mapped[i].from <= address && address < mapped[i].to) return true;
    return mapped_count == MAPPINGS;
}

// Remembers the files that were loaded since, and adds them to a map if it is there. So is the
// stack, of which an address is given. Returns whether what is loaded could be read.
static bool follow_mappings(FILE *map, uint64_t moved, uint64_t stack) {
    FILE *present = fopen("/proc/self/maps", "re");
    char line[PATH_MAX + 128];
    if (!present) return false;
    while (fgets(line, sizeof line, present)) {
        uint64_t from, to;
        int rest;
        if (sscanf(line, "%lx-%lx%n", &from, &to, &rest) < 2) continue;
        if (strchr(line, '/') && !is_mapped(from)) {
            mapped[mapped_count].from = from;
            mapped[mapped_count++].to = to;
            if (map) fprintf(map, "%lx-%lx%s", from - moved, to - moved, line + rest);
        } else if (map && stack && from - moved <= stack && stack < to - moved) {
            has_stack = true;
            fprintf(map, "%lx-%lx%.*s [stack]\n", from - moved, to - moved,
                    (int)strcspn(line + rest, "\n"), line + rest);
        }
    }
    fclose(present);
    return true;
}

static void on_first_data(unsigned cpu, uint32_t access, uint64_t address, void *own) {
    if (!first_data) first_data = address;
}

static void add_to_map(const struct qemu_plugin_insn *instruction) {
    uint64_t here = (uintptr_t)qemu_plugin_insn_haddr(instruction);
    uint64_t stack = has_stack ? 0 : first_data;
    if (!stack && is_mapped(here)) return;
    pthread_mutex_lock(&lock);
    FILE *map = fopen(map_name, "ae");
    bool followed = map && follow_mappings(map, here - qemu_plugin_insn_vaddr(instruction), stack);
    if (!followed) memory->map_fault = errno;  // it is tried again with the next code
    else if (!lacks_lines) memory->map_fault = 0;
    bool failed = map && ferror(map);
    if (map && (fclose(map) || failed)) lacks_lines = true, memory->map_fault = errno ? errno : EIO;
    pthread_mutex_unlock(&lock);
}

// ---- What QEMU calls

// A block begins with a fetch, and what an instruction refers to stands behind its fetch: other
// threads don't come between, unless it has more references than TOGETHER, or the part begins while
// it is executed.
enum { TOGETHER = 128 };

static void on_fetch(unsigned cpu, void *address) {
    if (mine && atomic_load_explicit(&mine->used, memory_order_relaxed) > REFERENCES - TOGETHER)
        hand_over();
    put('2', (uintptr_t)address, 0);
}

// The way of an access stands above its lowest 16 bits. An atomic instruction is one access in both
// ways where there are several threads, for which the interface has no call: it tells that it is a
// store, and not that it reads.
static enum way way_of(uint32_t access) { return access >> 16 & BOTH; }

static void on_data(unsigned cpu, uint32_t access, uint64_t address, void *own) {
    uint8_t bytes = tells_bytes ? (uint8_t)(1 << qemu_plugin_mem_size_shift(access)) : 0;
    if (way_of(access) & READ) put('0', address, bytes);
    if (way_of(access) & WRITE) put('1', address, bytes);
}

static void on_translation(plugin_id id, struct qemu_plugin_tb *block) {
    if (left_out) return;
    memory->ran = true;
    size_t count = qemu_plugin_tb_n_insns(block);
    if (map_name && count) add_to_map(qemu_plugin_tb_get_insn(block, 0));
    if (during != NOWHERE && count) watch_for_calls(block, count);
    if (has_heap && count && is_of_library(qemu_plugin_tb_get_insn(block, 0))) return;
    for (size_t i = 0; i < count; i++) {
        struct qemu_plugin_insn *instruction = qemu_plugin_tb_get_insn(block, i);
        void *address = (void *)(uintptr_t)qemu_plugin_insn_vaddr(instruction);
        if (has_heap) watch_for_atomic(instruction);
        watch_for_bounds(instruction, (uintptr_t)address);
        if (map_name && !first_data)
            qemu_plugin_register_vcpu_mem_cb(instruction, on_first_data, NO_REGISTERS, BOTH, NULL);
        if (memory->kind != 'd')
            qemu_plugin_register_vcpu_insn_exec_cb(instruction, on_fetch, NO_REGISTERS, address);
        if (memory->kind != 'i')
            qemu_plugin_register_vcpu_mem_cb(instruction, on_data, NO_REGISTERS, BOTH, NULL);
    }
}

// What a thread did before a system call stands before what others do after it, and nothing waits
// in a thread that sleeps or ends.
static void on_system_call(plugin_id id, unsigned cpu, int64_t number, uint64_t a, uint64_t b,
                           uint64_t c, uint64_t d, uint64_t e, uint64_t f, uint64_t g, uint64_t h) {
    if (!take_call(cpu, number, a, b, c, d)) hand_over();
}

static void on_exit_of_program(plugin_id id, void *own) {
    if (!left_out) memory->exited = true;
}

// A trace is of one address space, so a forked child has no part in it.
static void in_forked_child(void) {
    left_out = true;
    mine = NULL;
}

// The parent tells of it: the child may not run before all is over. A fork that fails sets errno.
static void before_fork(void) { errno = 0; }
static void in_forking_parent(void) {
    if (!left_out && !errno) memory->forked = true;
}

static int refuse(const char *why) {
    fprintf(stderr, "trace-plugin.so: %s\n", why);
    return 1;
}

static bool take(const char *word, int *descriptor) {
    if (!strncmp(word, "map=", 4)) return (map_name = strdup(word + 4)) != NULL;
    if (!strcmp(word, "heap=on")) return has_heap = true;
    return sscanf(word, "from=%lx", &from) == 1 || sscanf(word, "to=%lx", &to) == 1 ||
           sscanf(word, "during=%lx", &during) == 1 || sscanf(word, "memory=%d", descriptor) == 1;
}

EXPORTED int qemu_plugin_install(plugin_id id, const struct qemu_info *info, int count,
                                 char **words) {
    int descriptor = -1, taken = 0;
    while (taken < count && take(words[taken], &descriptor)) taken++;
    if (taken < count || descriptor < 0) return refuse("memory=FD is wanted; tools/trace uses it");
    if (has_bounds() && !qemu_plugin_start_code)
        return refuse("--from, --to and --during want QEMU 7.1 or later");
    memory = mmap(NULL, sizeof *memory, PROT_READ | PROT_WRITE, MAP_SHARED, descriptor, 0);
    if (memory == MAP_FAILED) return refuse("no shared memory");
    close(descriptor);
    tells_bytes = memory->threads;
    if (memory->layout != LAYOUT)
        return refuse("not compiled together with trace-run: remove both from the folder out");
    uint32_t store = WRITE << 16;
    if (!qemu_plugin_mem_is_store(store) || qemu_plugin_mem_is_store(~store))
        return refuse("this QEMU tells reads and writes in another way");
    if (map_name) follow_mappings(NULL, 0, 0);  // QEMU's own
    in_part = memory->began = from == NOWHERE && during == NOWHERE;
    pthread_atfork(before_fork, in_forking_parent, in_forked_child);
    qemu_plugin_register_vcpu_tb_trans_cb(id, on_translation);
    qemu_plugin_register_vcpu_syscall_cb(id, on_system_call);
    if (has_heap) qemu_plugin_register_vcpu_syscall_ret_cb(id, on_system_return);
    qemu_plugin_register_atexit_cb(id, on_exit_of_program, NULL);
    memory->loaded = true;
    return 0;
}
