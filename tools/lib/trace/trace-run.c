// Runs a program under a tracer and writes its references as din lines: the inner half of trace.
//
//     trace-run FD NAME KIND SKIP COUNT qemu FROM HEAP PLUGIN QEMU WORD..
//     trace-run FD NAME KIND SKIP COUNT lines IN OUT CONVERTER TRACER WORD..
//
// The first takes them from trace-plugin.c, by a memory that both share, the second as din lines
// from the descriptor IN. The trace goes to the descriptor FD; NAME is for messages. SKIP
// references of the KIND, with a t behind it where each line gets its thread's number and a data
// reference its bytes, are omitted, and the program is ended after COUNT more; a COUNT of 0 means
// no limit. FROM is the function with which the trace begins, for messages. HEAP is a descriptor
// for what befalls the heap, or ''. OUT is one that only the tracer is to keep, for the child
// CONVERTER of this process, which writes the lines. It ends with the program's status, 128 and its
// signal's number, or 125 or 126 for a fault.
#define _GNU_SOURCE
#include <err.h>
#include <stdarg.h>
#include <stdlib.h>
#include <sys/mman.h>
#include <sys/prctl.h>
#include <sys/wait.h>
#include "../din-line.h"
#include "../output.h"
#include "trace-memory.h"

enum { OWN_FAULT = 125, CANNOT_RUN = 126, PATIENCE = 2 };

static struct memory *memory;               // where QEMU is the tracer
static volatile pid_t program, converter;   // each 0 after its end; QEMU needs no converter
static volatile int status;                 // of the program's end
static volatile bool converter_failed;
static bool ran;                            // there was a reference
static sem_t ends;                          // of these processes, for who waits for them

// ---- The trace

static const char *trace_name;
static char kind;
static bool threads;          // are told apart
static uint64_t skip, count;  // how many references are still to be left out, and to be written
static bool skips;            // some were to be left out
static bool wrote;            // a reference was not
static uint64_t written;      // how many were not
static bool closed;           // nothing more is written: COUNT was reached, or a write failed

static volatile bool is_patient;  // the alarm is this process's own

static void wait_a_while(void) {
    is_patient = true;
    alarm(PATIENCE);
}

// Ends the program: by a signal that it may handle, and after some seconds by one that it can't.
static void end_program(void) {
    if (!program) return;
    kill(program, SIGTERM);
    wait_a_while();
}

// The same of a trace that is cut, with the converter, which would tell of a line that is cut.
static void give_up(void) {
    if (converter) kill(converter, SIGKILL);
    end_program();
}

static void heed_fault(void) {
    if (!output.fault || closed) return;
    closed = true;
    give_up();
}

static void drain(void) {
    if (closed) output.used = 0;
    drain_output();
    heed_fault();
}

static void finish(void) {
    if (closed) output.used = 0;
    finish_output();
    heed_fault();
}

// Ends the trace in a line that is no din line: who reads it doesn't take it for a whole one.
static void put_mark(const char *message) {
    closed = false;
    finish();
    output.used = (size_t)snprintf(output.text, ROOM, "%s: %s\n", program_invocation_short_name,
                                   message);
    finish();
    if (output.fault && output.fault != EPIPE) end_full_output(program_invocation_short_name);
}

// Ends with a message, in which the trace ends too.
static _Noreturn void fail(int own_status, const char *form, ...) {
    static char message[ROOM / 2];
    va_list values;
    va_start(values, form);
    vsnprintf(message, sizeof message, form, values);
    va_end(values);
    warnx("%s", message);
    if (!isatty(output.file)) put_mark(message);
    exit(own_status);
}

// Whether a reader may take what was written for the whole trace, whatever ended this process.
static bool goes_to_a_pipe(void) {
    struct stat of;
    return !fstat(output.file, &of) && (S_ISFIFO(of.st_mode) || S_ISSOCK(of.st_mode));
}

// Leaves a process that ends the trace in no din line, when a reader has room. Called in a handler.
static void leave_mark(void) {
    // what was written may end within a line
    static const char mark[] = "\ntrace: a signal ended it: what stands above is not all\n";
    sigset_t none;
    if (!goes_to_a_pipe() || fork()) return;
    for (int standard = 0; standard < 3; standard++) close(standard);
    for (int number = 1; number < NSIG; number++) signal(number, SIG_DFL);
    sigemptyset(&none);
    sigprocmask(SIG_SETMASK, &none, NULL);
    ssize_t wrote = write(output.file, mark, sizeof mark - 1);
    _exit(wrote < 0);
}

// Of some references that came, those from `from` to before `to` are to be written.
static void choose(size_t came, size_t *from, size_t *to) {
    *from = came < skip ? came : (size_t)skip;
    *to = came - *from < count ? came : *from + (size_t)count;
    skip -= *from;
    count -= *to - *from;
    wrote = wrote || *from < *to;
    written += *to - *from;
}

static void end_at_count(void) {
    if (count || closed) return;
    finish();
    closed = true;
    end_program();
}

#include "trace-heap-run.h"

// ---- Blocks of references, from QEMU

static char *put_number(char *at, unsigned number) {
    char digits[10];
    size_t count = 0;
    do digits[count++] = (char)('0' + number % 10);
    while (number /= 10);
    for (*at++ = ' '; count; count--) *at++ = digits[count - 1];
    return at;
}

// Goes on behind a line that has just been put.
static char *put_thread(char *end, unsigned thread, unsigned bytes) {
    char *at = put_number(end - 1, thread);
    if (bytes) at = put_number(at, bytes);
    *at = '\n';
    return at + 1;
}

static void write_references(const struct block *block, size_t first, size_t end) {
    size_t from, to;
    choose(end - first, &from, &to);
    char *at = output.text + output.used;
    for (size_t i = first + from; i < first + to; i++) {
        at = put_line(at, block->label[i], block->address[i]);
        if (threads) at = put_thread(at, block->thread, block->bytes[i]);
    }
    output.used = (size_t)(at - output.text);
    end_at_count();
}

static void write_block(struct block *block) {
    size_t end, all = atomic_load(&block->used);
    if (output.used > ROOM - REFERENCES * LONGEST_LINE) drain();
    for (size_t first = 0; first < all && !closed; first = end) {
        end = heap ? first : all;
        while (end < all && is_reference(block->label[end])) end++;
        if (end > first) write_references(block, first, end);
        else end = write_event(block, first);
    }
    atomic_store(&block->used, 0);
}

static void empty_block(size_t number) {
    write_block(&memory->blocks[number]);
    atomic_fetch_or(&memory->empty_ones, UINT64_C(1) << number);
    sem_post(&memory->empty);
}

static void follow_blocks(void) {
    uint32_t taken = 0;
    for (bool last = false; !last;) {
        sem_wait(&memory->full);  // the program's end counts as a block
        last = !program;
        for (; taken != atomic_load(&memory->handed_over); taken++)
            empty_block(memory->order[taken % BLOCKS]);
        drain();
    }
    for (size_t i = 0; i < BLOCKS; i++) write_block(&memory->blocks[i]);  // of killed threads
    finish();
}

static int share_memory(void) {
    int descriptor = memfd_create("references", 0);
    if (descriptor < 0 || ftruncate(descriptor, sizeof *memory))
        fail(OWN_FAULT, "no memory to share");
    memory = mmap(NULL, sizeof *memory, PROT_READ | PROT_WRITE, MAP_SHARED, descriptor, 0);
    if (memory == MAP_FAILED) fail(OWN_FAULT, "no memory to share");
    memory->layout = LAYOUT;
    memory->kind = kind;
    memory->threads = threads;
    memory->empty_ones = UINT64_MAX;
    sem_init(&memory->full, 1, 0);
    sem_init(&memory->empty, 1, BLOCKS);
    return descriptor;
}

// ---- Lines, from another tracer

// What is no din line goes on as it came: a converter says by it that it failed.
static void write_line(const char *line, size_t length) {
    size_t from, to;
    bool is_fetch = *line == '2', is_data = *line == '0' || *line == '1';
    if (is_fetch || is_data) ran = true;
    if ((kind == 'd' && is_fetch) || (kind == 'i' && is_data)) return;
    choose(1, &from, &to);
    if (closed || from == to) return;
    if (output.used > ROOM - length) drain();
    memcpy(output.text + output.used, line, length);
    output.used += length;
    end_at_count();
}

static void follow_lines(int in) {
    FILE *lines = fdopen(in, "r");
    char *line = NULL;
    size_t room = 0;
    if (!lines) fail(OWN_FAULT, "no lines to read");
    for (ssize_t length; (length = getline(&line, &room, lines)) > 0;)
        if (length < ROOM / 2 && line[length - 1] == '\n')  // a killed converter cuts its last
            write_line(line, (size_t)length);
    finish();
    while (program || converter) sem_wait(&ends);
}

// ---- The program

static volatile sig_atomic_t stopped;  // the last signal that came and was passed on
static volatile sig_atomic_t ending;   // and one that ends this process
static bool heeds_alarm;

static bool is_passed_on(int number) {
    return number == SIGHUP || number == SIGINT || number == SIGQUIT || number == SIGTERM ||
           number == SIGUSR1 || number == SIGUSR2;
}

// Of others those that would end this process, and are no fault of its own.
static bool is_an_end(int number) {
    static const int others[] = {
        SIGKILL, SIGSTOP, SIGTSTP, SIGTTIN, SIGTTOU, SIGCONT, SIGCHLD, SIGURG, SIGWINCH, SIGPIPE,
        SIGXFSZ, SIGSEGV, SIGBUS, SIGFPE, SIGILL, SIGABRT, SIGTRAP, SIGSYS};
    for (size_t i = 0; i < sizeof others / sizeof *others; i++)
        if (number == others[i]) return false;
    return true;
}

static void take_ended(void) {
    int how;
    for (pid_t process; (process = waitpid(-1, &how, WNOHANG)) > 0;) {
        if (process == program) {
            status = how;
            program = 0;
        } else if (process == converter) {
            converter_failed = how != 0;
            converter = 0;
            if (converter_failed) end_program();
        }
    }
    sem_post(memory ? &memory->full : &ends);
}

static int end_by(int number) {
    sigset_t none;
    sigemptyset(&none);
    sigprocmask(SIG_SETMASK, &none, NULL);
    signal(number, SIG_DFL);
    raise(number);
    return 128 + number;
}

// A signal from a terminal goes to the program as well; one that was sent to this process is passed
// on, or ends the program and then this process. After the program's end it ends this process,
// which may wait for a reader; but in some time, as the program has often just ended by it, for its
// last lines.
static void on_signal(int number, siginfo_t *info, void *context) {
    static volatile sig_atomic_t late;
    (void)context;
    int before = errno;
    if (number == SIGALRM && is_patient) {
        if (program) kill(program, SIGKILL), wait_a_while();
        else if (late) leave_mark(), _exit(ending ? end_by(ending) : 128 + late);
    } else if (number == SIGCHLD) {
        take_ended();
    } else if (number != SIGALRM || heeds_alarm) {
        take_ended();  // which may be reported only after this signal
        if (is_passed_on(number)) stopped = number;
        else ending = late = number;
        if (!program) late = number, wait_a_while();
        else if (ending) give_up();
        else if (info->si_code <= 0) kill(program, number);
    }
    errno = before;
}

// Those that were ignored stay so.
static void watch_signals(void) {
    struct sigaction was, action = {.sa_sigaction = on_signal,
                                    .sa_flags = SA_SIGINFO | SA_RESTART | SA_NOCLDSTOP};
    sigfillset(&action.sa_mask);
    sigaction(SIGALRM, NULL, &was);
    heeds_alarm = was.sa_handler != SIG_IGN;
    for (int number = 1; number < NSIG; number++)
        if (is_an_end(number) && !sigaction(number, NULL, &was) && was.sa_handler != SIG_IGN)
            sigaction(number, &action, NULL);
    sigaction(SIGCHLD, &action, NULL);
    sigaction(SIGALRM, &action, NULL);
    signal(SIGPIPE, SIG_IGN);  // a failing write tells it
}

static void start(char **words) {
    sigset_t all, before;
    pid_t own = getpid();
    sigfillset(&all);
    sigprocmask(SIG_BLOCK, &all, &before);
    for (int number = 1; number < NSIG; number++)  // which trace has put off until here
        if (is_an_end(number)) sigdelset(&before, number);
    program = fork();
    if (program < 0) fail(OWN_FAULT, "no process for the program");
    if (!program) {
        prctl(PR_SET_PDEATHSIG, SIGKILL);
        signal(SIGXFSZ, SIG_DFL);
        if (getppid() != own) _exit(OWN_FAULT);
        sigprocmask(SIG_SETMASK, &before, NULL);
        execvp(*words, words);
        err(OWN_FAULT, "%s", *words);
    }
    watch_signals();
    take_ended();  // a converter may have ended before
    sigprocmask(SIG_SETMASK, &before, NULL);
}

// ---- The whole

static const char cut_by_signal[] = "a signal ended it: what stands above is not all";

// Whether a signal to this process kept the program from going to its end.
static bool is_cut(void) {
    bool is_own = stopped == SIGUSR1 || stopped == SIGUSR2;  // which programs use themselves
    return stopped && !closed && (WIFSIGNALED(status) || (!is_own && WEXITSTATUS(status)));
}

static int judged(void) {
    if (ending && !closed) {
        put_mark(cut_by_signal);
        return end_by(ending);
    }
    if (converter_failed && !closed)
        fail(OWN_FAULT, "to-din failed: the tracer's lines can't be converted");
    if (!closed && !ran)
        fail(CANNOT_RUN, "the program can't be run: see the message of its tracer");
    if (is_cut() && goes_to_a_pipe()) {
        put_mark(cut_by_signal);
    } else if (skips && !wrote && !output.fault && !stopped) {
        fail(OWN_FAULT, "--skip omits all references of the program");
    }
    bool is_full = output.fault && output.fault != EPIPE;
    const char *how = is_full ? end_full_output(program_invocation_short_name) : "";
    if (close(output.file) && !output.fault) output.fault = errno;
    if (output.fault == EPIPE) return end_by(SIGPIPE);
    if (output.fault) errx(OWN_FAULT, "%s: %s%s", trace_name, strerror(output.fault), how);
    if (ending) return end_by(ending);
    if (closed) return 0;
    if (WIFSIGNALED(status)) return 128 + WTERMSIG(status);
    if (memory && !memory->exited)
        warnx("the program became another by exec, and what that did is not in the trace");
    if (memory && memory->forked)
        warnx("the program forked, and what its children did is not in the trace");
    return WEXITSTATUS(status);
}

// words: qemu FROM HEAP PLUGIN QEMU WORD..
static void trace_by_qemu(char **words) {
    int descriptor = share_memory();
    char *plugin;
    heap = *words[2] ? fdopen(atoi(words[2]), "w") : NULL;
    if (heap) fcntl(fileno(heap), F_SETFD, FD_CLOEXEC);
    if (asprintf(&plugin, "%s,memory=%d", words[3], descriptor) < 0) fail(OWN_FAULT, "no memory");
    char *first[] = {words[4], "-plugin", plugin};
    memcpy(words + 2, first, sizeof first);
    start(words + 2);
    close(descriptor);
    make_digits();
    follow_blocks();
    if (ending) return;
    if (!memory->loaded) fail(OWN_FAULT, "QEMU didn't take the plugin: see its message");
    ran = memory->ran;
    if (ran && !memory->began)
        fail(OWN_FAULT, "%s was never called, or only inlined", words[1]);
    if (memory->jumped)
        fail(OWN_FAULT, "a jump led to %s, not a call: "
                        "-fno-optimize-sibling-calls makes them calls", words[1]);
    if (heap && ran) end_heap();
    if (memory->map_fault)
        fail(OWN_FAULT, "the map can't be written: %s", strerror(memory->map_fault));
}

// words: lines IN OUT CONVERTER TRACER WORD..
static void trace_by_lines(char **words) {
    int in = atoi(words[1]), out = atoi(words[2]);
    fcntl(in, F_SETFD, FD_CLOEXEC);
    converter = atoi(words[3]);
    sem_init(&ends, 0, 0);
    start(words + 4);
    close(out);
    follow_lines(in);
}

int main(int words_count, char **words) {
    if (words_count < 10) errx(OWN_FAULT, "this is the inner half of trace");
    signal(SIGXFSZ, SIG_IGN);  // and so it is here
    begin_output(atoi(words[1]));
    trace_name = words[2];
    kind = words[3][0];
    threads = words[3][1] == 't';
    skip = strtoull(words[4], NULL, 10);
    skips = skip > 0;
    count = strtoull(words[5], NULL, 10);
    if (!count) count = UINT64_MAX;
    fcntl(output.file, F_SETFD, FD_CLOEXEC);
    if (!strcmp(words[6], "qemu")) trace_by_qemu(words + 6);
    else trace_by_lines(words + 6);
    return judged();
}
