// What to-din.c and second-level.c share, whose standard output is that of their tool.
#include <stdlib.h>
#include <sys/prctl.h>
#include "output.h"

enum { READY = 1 << 16 };               // so many bytes are written at once
enum { FULL = 74, READER_GONE = 141 };  // exit statuses, as in lib/processes.py

static void on_stop(int number) { output_is_stopped = number; }

// The tool ends it by SIGURG, which nobody sends otherwise.
static void begin_filter(void) {
    struct sigaction stop = {.sa_handler = on_stop};
    sigaction(SIGURG, &stop, NULL);
    sigaction(SIGXCPU, &stop, NULL);
    signal(SIGPIPE, SIG_IGN);  // a failing write tells it
    prctl(PR_SET_PDEATHSIG, SIGKILL);
    begin_output(STDOUT_FILENO);
}

// Ends it where a signal came. What was written ends with a line then.
static void heed_stop(void) {
    if (!output_is_stopped) return;
    finish_output();
    signal(output_is_stopped, SIG_DFL);
    raise(output_is_stopped);
    exit(1);
}

static ssize_t read_input(char *to, size_t most) {
    ssize_t got;
    do {
        got = read(STDIN_FILENO, to, most);
        heed_stop();
    } while (got < 0 && errno == EINTR);
    return got;
}

// Ends it where a write failed or was stopped; `what` failed for NAME.
static void judge_output(const char *name, const char *what) {
    heed_stop();
    if (!output.fault) return;
    if (output.fault == EPIPE) exit(READER_GONE);
    const char *why = strerror(output.fault);
    fprintf(stderr, "%s: %s: %s%s\n", name, what, why, end_full_output(name));
    exit(FULL);
}

// Where the next line goes, for which there is room up to READY bytes.
static inline char *next_line(const char *name, const char *what) {
    if (output.used > READY) {
        drain_output();
        judge_output(name, what);
    }
    return output.text + output.used;
}

static void finish(const char *name, const char *what) {
    finish_output();
    judge_output(name, what);
}
