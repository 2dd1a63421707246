// What befalls the heap of the traced program, of which trace-heap.c and system calls tell: a part
// of trace-plugin.c, which has read what it needs. It goes to trace-run.c as events among the
// references (trace-memory.h), whose first word is the thread's number if it is as of the thread's
// last call of the allocator, or else 0.
#include <sys/syscall.h>
#include "trace-heap.h"

__attribute__((weak)) void qemu_plugin_register_vcpu_syscall_ret_cb(
    plugin_id, void (*)(plugin_id, unsigned cpu, int64_t number, int64_t answer));

static bool has_heap;                            // it is wanted
static struct { uint64_t from, to; } heap_code;  // where the library's code is
static uint64_t heap_moved;                      // QEMU's addresses less the program's
static bool has_threads;
static uint64_t local_size;                      // of threads' own data, at the end of their stacks
static __thread uint64_t asked[4], frames[FRAMES], frame_count;
static __thread bool is_inside;                  // the allocator
static __thread uint64_t old_block;              // of the call of realloc, or 0

// An event stands in one block.
static void put_event(char kind, const uint64_t *words, size_t count) {
    if (mine && atomic_load(&mine->used) + count >= REFERENCES) hand_over();
    struct block *block = mine ? mine : next_block();
    if (!block) return;
    uint32_t at = atomic_load(&block->used);
    block->label[at] = kind, block->address[at] = count;
    memcpy(block->address + at + 1, words, count * sizeof *words);
    atomic_store(&block->used, at + 1 + (uint32_t)count);
}

static void put_range(char kind, uint64_t since, uint64_t address, uint64_t size) {
    put_event(kind, (uint64_t[]){since, address, size}, 3);
}

static void on_heap_call(uint64_t thread, uint64_t kind, uint64_t a, uint64_t b, uint64_t c) {
    uint64_t words[3 + FRAMES] = {c ? thread : 0, a, b};
    is_quiet = kind == QUIET || kind == CODE;
    if (kind == CODE) heap_code.from = a, heap_code.to = b;
    if (kind == LOCAL) put_range('t', 0, a, local_size = b), memory->heap = c ? 'y' : 'n';
    if (kind == CALL) {
        memcpy(frames, (void *)(uintptr_t)(a + heap_moved), (frame_count = b) * sizeof *frames);
        is_inside = true;
        put_event('c', &thread, 1);
        old_block = a ? c : 0;  // free has no frames
        if (c) put_event(old_block ? '<' : '-', (uint64_t[]){0, c}, 2);
    } else if (kind == GAVE) {
        memcpy(words + 3, frames, frame_count * sizeof *frames);
        is_inside = false;
        if (a) put_event('+', words, 3 + frame_count);
        // a realloc that fails leaves the old block as it is
        if (old_block && (a || !b)) put_event('>', (uint64_t[]){0, old_block}, 2);
    }
}

// Returns whether a system call is one of trace-heap.c's.
static bool take_call(unsigned cpu, int64_t number, uint64_t a, uint64_t b, uint64_t c,
                      uint64_t d) {
    if (!has_heap) return false;
    if (number == HEAP_CALL) return on_heap_call(cpu + 1, a, b, c, d), true;
    memcpy(asked, (uint64_t[]){a, b, c, d}, sizeof asked);
    if (number == SYS_clone) has_threads = true;
    return false;
}

static void on_system_return(plugin_id id, unsigned cpu, int64_t number, int64_t answer) {
    static uint64_t end;  // of what brk gave
    uint64_t at = (uint64_t)answer, since = is_inside ? cpu + 1 : 0;
    bool is_stack = number == SYS_mmap && asked[3] & MAP_STACK && asked[1] > local_size;
    char kind = is_inside ? 'm' : is_stack ? 's' : 'u';
    if (answer < 0) return;
    if (number == SYS_mmap || number == SYS_mremap)
        put_range(kind, since, at, asked[number == SYS_mmap ? 1 : 2]);
    if (is_stack) put_range('t', 0, at + asked[1] - local_size, local_size);
    if (number == SYS_brk && end && at > end) put_range(kind, since, end, at - end);
    if (number == SYS_brk) end = at;
}

// Before an atomic instruction, by which threads hand each other what is on the heap.
static void on_atomic(unsigned cpu, void *own) {
    if (has_threads) hand_over();
}

static void watch_for_atomic(struct qemu_plugin_insn *instruction) {
    char *text = qemu_plugin_insn_disas(instruction);
    if (text && (!strncmp(text, "lock", 4) || !strncmp(text, "xchg", 4)))
        qemu_plugin_register_vcpu_insn_exec_cb(instruction, on_atomic, NO_REGISTERS, NULL);
    free(text);
}

// Whether code is the library's, which has no references.
static bool is_of_library(const struct qemu_plugin_insn *first) {
    uint64_t here = qemu_plugin_insn_vaddr(first);
    heap_moved = (uintptr_t)qemu_plugin_insn_haddr(first) - here;
    return heap_code.from <= here && here < heap_code.to;
}
