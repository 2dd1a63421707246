// A library that `trace --heap` has loaded before a program's others: it tells trace-plugin.c which
// blocks the program allocates and frees, and who calls for that. What it does itself, and calls,
// is not in the trace, except the allocator.
#define _GNU_SOURCE
#include <dlfcn.h>
#include <errno.h>
#include <link.h>
#include <stdbool.h>
#include <stdlib.h>
#include <string.h>
#include <unistd.h>
#include <unwind.h>
#include "trace-heap.h"
#ifdef __x86_64__

#define EXPORTED __attribute__((visibility("default")))

void *__libc_malloc(size_t), *__libc_calloc(size_t, size_t), *__libc_realloc(void *, size_t);
void *__libc_memalign(size_t, size_t), *__libc_valloc(size_t), *__libc_pvalloc(size_t);
void __libc_free(void *);
extern const char __ehdr_start, _etext __attribute__((visibility("hidden")));  // of this library
static bool is_called;  // what the program calls comes here
enum { PAGE = 4096 };

static inline void tell(enum heap_kind kind, uintptr_t a, uintptr_t b, uintptr_t c) {
    register uintptr_t fourth __asm__("r10") = c;
    long number = HEAP_CALL;
    __asm__ volatile("syscall" : "+a"(number) : "D"(kind), "S"(a), "d"(b), "r"(fourth)
                     : "rcx", "r11", "memory");
}

struct walk { uintptr_t frames[2 + FRAMES], count; };

static _Unwind_Reason_Code take_frame(struct _Unwind_Context *context, void *own) {
    struct walk *walk = own;
    uintptr_t at = _Unwind_GetIP(context);
    if (at) walk->frames[walk->count++] = at;
    return walk->count == 2 + FRAMES ? _URC_END_OF_STACK : _URC_NO_REASON;
}

// Before the allocator is called, from an exported function; the first two frames are theirs. This
// is no part of that, so that the allocator's own stack is not much lower.
static __attribute__((noinline)) void begin(void *freed) {
    struct walk walk;
    walk.count = 0;
    tell(QUIET, 0, 0, 0);
    _Unwind_Backtrace(take_frame, &walk);
    tell(CALL, (uintptr_t)(walk.frames + 2), walk.count - 2, (uintptr_t)freed);
}

// ---- The allocator's functions

#define GIVES(name, parameters, call, freed, size, is_since_call) \
    EXPORTED void *name parameters {                              \
        begin(freed);                                             \
        void *block = call;                                       \
        tell(GAVE, (uintptr_t)block, size, is_since_call);        \
        return block;                                             \
    }

GIVES(malloc, (size_t size), __libc_malloc(size), NULL, size, false)
GIVES(valloc, (size_t size), __libc_valloc(size), NULL, size, false)
GIVES(pvalloc, (size_t size), __libc_pvalloc(size), NULL, (size + PAGE - 1) & -PAGE, false)
GIVES(memalign, (size_t to, size_t size), __libc_memalign(to, size), NULL, size, false)
GIVES(aligned_alloc, (size_t to, size_t size), __libc_memalign(to, size), NULL, size, false)
GIVES(calloc, (size_t count, size_t size), __libc_calloc(count, size), NULL, count * size, true)
GIVES(realloc, (void *old, size_t size), __libc_realloc(old, size), old, size, true)

EXPORTED int posix_memalign(void **block, size_t to, size_t size) {
    if (to % sizeof *block || !to || to & (to - 1)) return EINVAL;
    begin(NULL);
    void *given = __libc_memalign(to, size);
    tell(GAVE, (uintptr_t)given, size, false);
    if (given) *block = given;
    return given ? 0 : ENOMEM;
}

EXPORTED void free(void *block) {
    is_called = true;
    tell(CALL, 0, 0, (uintptr_t)block);
    __libc_free(block);
    tell(GAVE, 0, 0, 0);
}

// ---- The begin: this is the first library that gets ready

static int find_local(struct dl_phdr_info *info, size_t size, void *first) {
    char **least = first, *data = info->dlpi_tls_data;
    if (size && data && data < *least) *least = data;
    return 0;
}

// Other programs, which have no plugin, are not to load it.
static void mend_environment(void) {
    char *loaded = getenv("LD_PRELOAD"), *others = loaded ? strchr(loaded, ':') : NULL;
    if (others) memmove(loaded, others + 1, strlen(others));
    else unsetenv("LD_PRELOAD");
    unsetenv("CACHESIM_FILLER");
}

__attribute__((constructor)) static void get_ready(int count, char **words, char **variables) {
    (void)count, (void)words, environ = variables;
    tell(CODE, (uintptr_t)&__ehdr_start, (uintptr_t)&_etext, 0);
    void *volatile nothing = NULL;
    free(nothing);
    tell(QUIET, 0, 0, 0);
    char *thread = __builtin_thread_pointer(), *first = thread;
    const uint32_t *thread_size = dlsym(RTLD_DEFAULT, "_thread_db_sizeof_pthread");
    dl_iterate_phdr(find_local, &first);
    mend_environment();
    bool is_there = is_called && dlsym(RTLD_NEXT, "malloc") == (void *)__libc_malloc;
    size_t size = (size_t)(thread - first) + (thread_size ? *thread_size : 0);
    tell(LOCAL, (uintptr_t)first, size, is_there);
    if (!is_there) _exit(1);
}
#endif
