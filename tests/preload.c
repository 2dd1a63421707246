/* Calls of the C library that give no memory, fail, or move little at a time: common.py builds this
   as a shared library, which LD_PRELOAD puts into the program.

   REFUSE_AT=N      the Nth call that asks for memory gets none; 0: each gets it
   REFUSE_AFTER=1   nor does any later call
   REFUSE_TELL=FD   at each refusal one byte is written there
   REFUSE_OPEN=1    no file can be opened, for want of memory in the kernel
   READ_MOST=N      each read gets at most N bytes; 0: as many as it asks for
   READ_FAILS=N     the Nth read fails; 0: none
   WRITE_MOST=N     the same of writes to standard output
   WRITE_FAILS=N
   TELL_CALLS=1     at the end of the process the numbers of reads and writes are written to
                    standard error
   TELL_PEAK=1      the same of the most memory that it had, in KiB
   TELL_ASKED=N     the same of the bytes that it asked for in pieces of N or more, those that it
                    gave back too, and how many of them it asked for after its first read

   A read or a write after one that failed ends the process with status 98: a device that failed is
   not to be asked again. */
#include <errno.h>
#include <fcntl.h>
#include <malloc.h>
#include <stdarg.h>
#include <stdio.h>
#include <stdlib.h>
#include <sys/mman.h>
#include <sys/syscall.h>
#include <unistd.h>

void *__libc_malloc(size_t);
void *__libc_calloc(size_t, size_t);
void *__libc_realloc(void *, size_t);
void *__libc_memalign(size_t, size_t);

struct calls {
    unsigned long most, fails, made;
    int failed;
};

static struct calls reads, writes;
static unsigned long asked, refused_call;
/* what it asked for in pieces of at least so many bytes, and that before its first read */
static unsigned long piece, bytes, bytes_before;
static int is_on, and_later, told = -1;

static unsigned long number(const char *name) {
    const char *text = getenv(name);
    return text ? strtoul(text, NULL, 10) : 0;
}

__attribute__((constructor)) static void begin(void) {
    refused_call = number("REFUSE_AT");
    and_later = number("REFUSE_AFTER") > 0;
    told = getenv("REFUSE_TELL") ? (int)number("REFUSE_TELL") : -1;
    reads.most = number("READ_MOST");
    reads.fails = number("READ_FAILS");
    writes.most = number("WRITE_MOST");
    writes.fails = number("WRITE_FAILS");
    is_on = refused_call > 0;
    piece = number("TELL_ASKED");
}

/* What wait4 tells of a process has the memory of the one that forked it in it; this is its own. */
static void tell_peak(void) {
    FILE *status = fopen("/proc/self/status", "r");
    char line[256];
    long kib;
    while (status && fgets(line, sizeof line, status))
        if (sscanf(line, "VmHWM: %ld kB", &kib) == 1) fprintf(stderr, "%ld\n", kib);
    if (status) fclose(status);
}

__attribute__((destructor)) static void end(void) {
    if (number("TELL_CALLS")) fprintf(stderr, "%lu reads, %lu writes\n", reads.made, writes.made);
    if (number("TELL_PEAK")) tell_peak();
    if (piece) fprintf(stderr, "%lu bytes, %lu late\n", bytes, bytes - bytes_before);
}

/* Memory. */

static int refuses(size_t size) {
    if (size >= piece) bytes += size;
    if (!is_on) return 0;
    asked++;
    if (!(asked == refused_call || (and_later && asked > refused_call))) return 0;
    if (told >= 0 && syscall(SYS_write, told, "!", 1) < 0) _exit(99);
    errno = ENOMEM;
    return 1;
}

void *malloc(size_t size) { return refuses(size) ? NULL : __libc_malloc(size); }
void *calloc(size_t count, size_t size)
{
    return refuses(count * size) ? NULL : __libc_calloc(count, size);
}
void *realloc(void *old, size_t size)
{
    return size && refuses(size) ? NULL : __libc_realloc(old, size);
}
void *memalign(size_t step, size_t size)
{
    return refuses(size) ? NULL : __libc_memalign(step, size);
}
void *aligned_alloc(size_t step, size_t size) { return memalign(step, size); }

int posix_memalign(void **out, size_t step, size_t size) {
    if (refuses(size)) return ENOMEM;
    void *got = __libc_memalign(step, size);
    if (got) *out = got;
    return got ? 0 : ENOMEM;
}

void *mmap(void *at, size_t size, int prot, int flags, int file, off_t from) {
    if (refuses(size)) return MAP_FAILED;
    return (void *)syscall(SYS_mmap, at, size, prot, flags, file, from);
}

/* Files and devices. */

int open(const char *name, int flags, ...) {
    if (number("REFUSE_OPEN")) {
        errno = ENOMEM;
        return -1;
    }
    va_list more;
    va_start(more, flags);
    int mode = va_arg(more, int);
    va_end(more);
    return (int)syscall(SYS_openat, AT_FDCWD, name, flags, mode);
}

/* How many bytes a call may move, or 0 where it fails. */
static size_t allowed(struct calls *calls, size_t size) {
    if (calls->failed) _exit(98);
    calls->made++;
    if (calls->made == calls->fails) {
        calls->failed = 1;
        errno = EIO;
        return 0;
    }
    return calls->most && size > calls->most ? calls->most : size;
}

ssize_t read(int file, void *into, size_t size) {
    if (!reads.made) bytes_before = bytes;
    size_t most = allowed(&reads, size);
    return size && !most ? -1 : syscall(SYS_read, file, into, most);
}

ssize_t write(int file, const void *from, size_t size) {
    if (file != 1) return syscall(SYS_write, file, from, size);
    size_t most = allowed(&writes, size);
    return size && !most ? -1 : syscall(SYS_write, file, from, most);
}

ssize_t __write(int file, const void *from, size_t size) { return write(file, from, size); }
