// Where a trace goes that a C part writes: for to-din.c, second-level.c and trace-run.c.
//
// A write ends behind the label of a line, such as "2 ", whose address comes with the next write:
// what a process leaves that is killed is a trace for no simulator. Within a write it leaves zeros
// at the end of a file, unless that is appended to. Only the last write ends with a line. Where a
// file has no more room, the mark takes the place of this run's own last lines, and never that of
// what was there before, or of what others have appended.
#include <errno.h>
#include <fcntl.h>
#include <limits.h>
#include <signal.h>
#include <stdbool.h>
#include <stdio.h>
#include <string.h>
#include <sys/ioctl.h>
#include <sys/stat.h>
#include <unistd.h>

enum { ROOM = 1 << 20, LABEL = 2, TAIL = 256 };

static struct {
    int file, fault;          // what a write failed with, as in errno
    bool is_within;           // what was written ends within a line
    bool is_at_end;           // of a regular file, whose writes are not appended
    off_t begin;              // where this run began in a regular file
    size_t pipe_size;         // the room of an empty pipe
    size_t used, kept;        // the bytes of the next two
    char text[ROOM];          // what waits to be written, whole lines
    char tail[TAIL];          // what was written last
} output;
static volatile sig_atomic_t output_is_stopped;  // by a signal

// Before the first byte.
static void begin_output(int file) {
    struct stat of;
    output.file = file;
    if (fstat(file, &of)) return;
    int size = S_ISFIFO(of.st_mode) ? fcntl(file, F_GETPIPE_SZ) : 0;
    output.pipe_size = size > PIPE_BUF ? (size_t)size : size ? PIPE_BUF : 0;
    if (!S_ISREG(of.st_mode)) return;
    bool appends = fcntl(file, F_GETFL) & O_APPEND;
    output.begin = appends ? of.st_size : lseek(file, 0, SEEK_CUR);
    output.is_at_end = !appends && output.begin == of.st_size;
}

static void remember(const char *end, size_t size) {
    size_t new = size < TAIL ? size : TAIL, old = output.kept;
    if (old > TAIL - new) old = TAIL - new;
    memmove(output.tail, output.tail + output.kept - old, old);
    memcpy(output.tail + old, end - new, new);
    output.kept = old + new;
}

// A write to a pipe that waits for room may be done in part where the process is killed: but not
// one of at most PIPE_BUF bytes, nor one for which an empty pipe has room. With the first alone a
// converter that feeds `cat` would take a fifth more processor time; with both it takes no more.
static size_t next_piece(const char *from, size_t left) {
    int waiting = 0;
    if (!output.pipe_size || left <= PIPE_BUF) return left;
    size_t most = ioctl(output.file, FIONREAD, &waiting) || waiting ? PIPE_BUF : output.pipe_size;
    const char *feed = left > most ? memrchr(from, '\n', most - LABEL) : NULL;
    return feed ? (size_t)(feed + 1 + LABEL - from) : left;
}

// Takes back what was written first, where the write failed and the file still ends there.
static void cut_behind(off_t end) {
    struct stat of;
    int fault = errno;
    if (!fstat(output.file, &of) && of.st_size == end)
        (void)!ftruncate(output.file, lseek(output.file, 0, SEEK_CUR));
    errno = fault;
}

// A file may take a write in part where the process is killed, up to the end of some page: so its
// last byte is there first, and what lies between are zeros until then. Who reads the file
// meanwhile may see them, too.
static ssize_t write_piece(const char *from, size_t size) {
    if (!output.is_at_end || size < 2) return write(output.file, from, size);
    off_t behind = lseek(output.file, 0, SEEK_CUR) + (off_t)size;
    bool is_reserved = pwrite(output.file, from + size - 1, 1, behind - 1) == 1;
    ssize_t wrote = write(output.file, from, size);
    if (is_reserved && wrote < (ssize_t)size) cut_behind(behind);
    return wrote;
}

// Writes the first bytes that wait; where a signal stops it, the rest of a line at most.
static void write_first(size_t size) {
    char *from = output.text, *end = from + size;
    while (from < end && !output.fault) {
        if (output_is_stopped)
            end = output.is_within ? (char *)memchr(from, '\n', ROOM) + 1 : from;
        ssize_t wrote = write_piece(from, next_piece(from, (size_t)(end - from)));
        if (wrote < 0 && errno != EINTR) output.fault = errno;
        if (wrote <= 0) continue;
        from += wrote;
        remember(from, (size_t)wrote);
        output.is_within = from[-1] != '\n';
    }
    output.used = output.fault ? 0 : output.used - (size_t)(from - output.text);
    memmove(output.text, from, output.used);
}

// Writes what waits, except for the last address.
static void drain_output(void) {
    const char *feed = output.used ? memrchr(output.text, '\n', output.used - 1) : NULL;
    size_t size = feed ? (size_t)(feed + 1 - output.text) + LABEL : output.is_within ? 0 : LABEL;
    write_first(size < output.used ? size : output.used);
}

static void finish_output(void) { write_first(output.used); }

// Puts the mark over the end of some text from a place on, up to which it may be cut.
static void put_mark_over(char *at, char *end, const char *name) {
    size_t length = (size_t)snprintf(at, (size_t)(end - at), "%s failed: what stands above is not "
                                     "all", name);
    memset(at + length, ' ', (size_t)(end - at) - length);
    end[-1] = '\n';
}

static const char *settled(const char *name) {
    struct stat of;
    char path[40], was[TAIL];
    if (fstat(output.file, &of) || !S_ISREG(of.st_mode)) return "";
    off_t end = lseek(output.file, 0, SEEK_CUR), from = end - (off_t)output.kept;
    snprintf(path, sizeof path, "/proc/self/fd/%d", output.file);
    int file = open(path, O_RDWR | O_CLOEXEC);  // what appends can write to no other place
    bool is_own = pread(file, was, output.kept, from) == (ssize_t)output.kept &&
                  !memcmp(was, output.tail, output.kept);
    size_t longest = strlen(name) + sizeof " failed: what stands above is not all";
    char *feed = output.kept > longest ? memrchr(was, '\n', output.kept - longest) : NULL;
    char *at = feed ? feed + 1 : was, *behind = was + output.kept;
    bool is_marked = false;
    if (is_own && (feed || from == output.begin) && at + longest <= behind) {
        put_mark_over(at, behind, name);
        is_marked = pwrite(file, at, (size_t)(behind - at), from + (at - was)) == behind - at;
    }
    close(file);
    if (is_marked) return "";
    bool is_all = is_own && from == output.begin && end == of.st_size;
    if (!output.kept || (is_all && !ftruncate(output.file, from))) return "; none of it is kept";
    return "; its end can't be marked";
}

// Ends a file that has no more room, once, and returns what a message says of it.
static const char *end_full_output(const char *name) {
    static const char *told;
    if (!told) told = settled(name);
    return told;
}
