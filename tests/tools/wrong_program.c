/* The program with mistakes, for the tests of the tests. Each name that is defined puts one in, as
   `cc -DBYTE`; several can be.

   Built as a shared library, these are calls of the C library that do something wrong. Built with
   RIGHT and LIBRARY, which are paths, it is a program that runs the right one with that library in
   front of those that LD_PRELOAD names.

   BYTE       the first digit of the output is another one; with WRONG_COMMAND in the environment,
              of that command alone
   LAST       the last digit of each piece of the output is another one, likewise
   MESSAGE    the first letter of a message is a capital
   WORD       the last letter of a message is a capital
   LINE       the last digit of a message is another one
   WARNS      a run that goes well writes a message behind its last word
   STATUS     a run that goes well ends with status 3, and one that fails with status 0
   SILENT     a write that fails is taken for one that went well
   AGAIN      behind the end of its input the program reads once more
   KEEPS      each of the first hundred reads asks for a megabyte of memory, and keeps it
   GREEDY     with 2^20 sets among its arguments the program takes four megabytes more than it needs
   PIECES     no read and no write moves more than 4,096 bytes
   CRASH      once it is done, a signal ends the program
   SLOW       the 300th read takes 0.3 s of the processor, and -v a second */
#define _GNU_SOURCE
#include <ctype.h>
#include <dlfcn.h>
#include <signal.h>
#include <stdio.h>
#include <stdlib.h>
#include <string.h>
#include <time.h>
#include <unistd.h>

#ifdef RIGHT
int main(int argc, char **argv) {
    char both[8192];
    const char *others = getenv("LD_PRELOAD");
    (void)argc;
    snprintf(both, sizeof both, "%s:%s", LIBRARY, others ? others : "");
    setenv("LD_PRELOAD", both, 1);
    execv(RIGHT, argv);
    return 99;
}
#else

/* HAS(NAME) is 1 where NAME is defined by -DNAME, and else 0, as in student.c. */
#define COMMA_1 0,
#define SECOND(first, second, ...) second
#define IS(text) SECOND(text 1, 0, )
#define JOINED(value) IS(COMMA_##value)
#define HAS(name) JOINED(name)

static int is_of_command, has_written, reads;

static int is_among(const char *text, char **words) {
    for (; *words; words++)
        if (!strcmp(text, *words)) return 1;
    return 0;
}

static int has_many_sets(char **words) {
    return is_among("1m", words) || is_among("16m", words) || is_among("20", words);
}

/* Has the processor work for some milliseconds. */
static void work(int milliseconds) {
    clock_t end = clock() + milliseconds * (CLOCKS_PER_SEC / 1000);
    while (clock() < end) {}
}

/* Asks for memory, and uses it, so that the kernel gives it. */
static void take(size_t size) {
    volatile char *got = malloc(size);
    for (size_t at = 0; got && at < size; at += 4096) got[at] = 1;
}

static void end(int status, void *unused) {
    (void)unused;
    fflush(NULL);
    if (HAS(WARNS) && !status) dprintf(2, "all went well\n");
    if (HAS(STATUS)) _exit(status ? 0 : 3);
}

__attribute__((destructor)) static void delay(void) {
    if (HAS(CRASH)) raise(SIGKILL);
}

__attribute__((constructor)) static void begin(int argc, char **argv) {
    (void)argc;
    const char *command = getenv("WRONG_COMMAND");
    is_of_command = !command || is_among(command, argv);
    if (HAS(STATUS) || HAS(WARNS)) on_exit(end, NULL);
    if (HAS(SLOW) && is_among("-v", argv)) work(1000);
    if (HAS(GREEDY) && has_many_sets(argv)) take(4 << 20);
}

static size_t at_most(size_t size) { return HAS(PIECES) && size > 4096 ? 4096 : size; }

ssize_t read(int file, void *into, size_t size) {
    ssize_t (*next)(int, void *, size_t) = dlsym(RTLD_NEXT, "read");
    reads++;
    if (HAS(SLOW) && reads == 300) work(300);
    if (HAS(KEEPS) && reads <= 100) take(1 << 20);
    ssize_t got = next(file, into, at_most(size));
    return HAS(AGAIN) && !got ? next(file, into, size) : got;
}

/* The place of the first or the last digit, or letter, of a piece; its size if there is none. */
static size_t place_of(const char *piece, size_t size, int (*is_wanted)(int), int is_last) {
    for (size_t at = 0; at < size; at++) {
        size_t place = is_last ? size - 1 - at : at;
        if (is_wanted((unsigned char)piece[place])) return place;
    }
    return size;
}

/* Writes a piece in which the letter or the digit at a place is another one. */
static ssize_t changed(int file, const char *from, size_t size, size_t at) {
    ssize_t (*next)(int, const void *, size_t) = dlsym(RTLD_NEXT, "write");
    char *copy = memcpy(alloca(size), from, size);
    int had = at < size ? copy[at] : 0;
    if (at < size) copy[at] = isdigit(had) ? '0' + (had - '0' + 1) % 10 : toupper(had);
    ssize_t done = next(file, copy, size);
    has_written |= file == 1 && done > (ssize_t)at;
    return done;
}

ssize_t write(int file, const void *from, size_t size) {
    ssize_t (*next)(int, const void *, size_t) = dlsym(RTLD_NEXT, "write");
    int is_first = file == 1 && is_of_command && !has_written, is_message = file == 2;
    size = at_most(size);
    size_t at = HAS(BYTE) && is_first ? place_of(from, size, isdigit, 0)
        : HAS(LAST) && file == 1 && is_of_command ? place_of(from, size, isdigit, 1)
        : HAS(MESSAGE) && is_message ? 0
        : HAS(WORD) && is_message ? place_of(from, size, isalpha, 1)
        : HAS(LINE) && is_message ? place_of(from, size, isdigit, 1) : size;
    ssize_t done = at < size ? changed(file, from, size, at) : next(file, from, size);
    return HAS(SILENT) && file == 1 && done < 0 ? (ssize_t)size : done;
}
#endif
