// The trace that by-line hands out to the logs, with the program counter of each reference in it. A
// part of by-line.c, which has read what it needs.
//
// The logs get each line, but an empty one in the place of a line whose reference no first-level
// cache takes. A line that is in any way unusual is handed out as it is: `cachesim log` judges it.

// ---- The lines of the trace

enum { UNKNOWN = UINT32_MAX };
static bool is_lackey, takes_data, takes_fetches;
static uint64_t fetched = UINT64_MAX;  // of the last fetch; at first that of no instruction
static uint32_t counter_fetched;       // its number, or UNKNOWN

static void hand(uint64_t address) {
    if (counter_fetched == UNKNOWN) counter_fetched = number_of(&counters, fetched);
    push(&handed, (struct reference){address, counter_fetched, events_before(), false});
}

static const char *past_blanks(const char *at) {
    while (*at == ' ' || *at == '\t') at++;
    return at;
}

// Whether a good address ends here, and in lackey's format a size behind it, and the line.
static bool is_plain(const char *address, const char *at) {
    if (at == address || at - address > 16) return false;
    if (is_lackey) {
        if (*at++ != ',') return false;
        const char *size = at;
        while (*at >= '0' && *at <= '9') at++;
        if (at == size || at - size > 9) return false;
    }
    return *at == '\n';
}

// Takes the references of a line, and returns the LF behind it. `*is_left_out` is whether it is a
// plain line that no first-level cache takes. A faulty line may be taken as anything, since no log
// goes on after it.
static const char *take_references(const char *line, bool *is_left_out) {
    const char *label = past_blanks(line), *from = past_blanks(label + 1);
    bool is_fetch = *label == (is_lackey ? 'I' : '2');
    bool is_data = is_lackey ? *label == 'L' || *label == 'S' || *label == 'M'
                             : *label == '0' || *label == '1';
    *is_left_out = false;
    if (!is_fetch && !is_data) return rawmemchr(label, '\n');
    uint64_t address;
    if (!is_lackey && *from == '0' && (from[1] | ' ') == 'x') from += 2;
    const char *at = past_hexadecimal(from, &address);
    if (is_fetch && address != fetched) fetched = address, counter_fetched = UNKNOWN;
    bool is_taken = is_fetch ? takes_fetches : takes_data;
    *is_left_out = !is_taken && from > label + 1 && is_plain(from, at);
    if (!*is_left_out) hand(address);
    if (!*is_left_out && *label == 'M') hand(address);
    return rawmemchr(at, '\n');
}

// ---- Reading and handing out

struct log {
    int to, from;    // where the trace goes to it, and where it comes from; -1 when that has ended
    size_t written;  // how much it has of what is ready
    size_t used;
    char text[ROOM];
};
static struct log logs[2] = {{.to = -1, .from = -1}, {.to = -1, .from = -1}};
static int log_count;
static struct {
    char text[ROOM + 1];
    size_t ready, rest, used;  // what is handed out; where what is not yet taken begins, and ends
} trace;

// Takes the lines that were read. The last may have no end; one that fills the room is too long.
static void take_trace(bool has_ended) {
    char *line = trace.text, *end = line + trace.used, *to = line;
    char *last = memrchr(line, '\n', trace.used), *stop = last ? last + 1 : line;
    if (has_ended || (!last && trace.used == ROOM)) stop = end;
    *end = '\n';
    while (line < stop) {
        bool is_left_out;
        const char *next = take_references(line, &is_left_out) + 1;
        size_t length = (size_t)((next < stop ? next : stop) - line);
        if (is_left_out) *to++ = '\n';
        else if (to != line) memmove(to, line, length), to += length;
        else to += length;
        line += length, lines_taken++;
    }
    trace.ready = (size_t)(to - trace.text), trace.rest = (size_t)(line - trace.text);
}

// Reads more of the trace, and returns whether there is something to hand out or may be later.
static bool read_trace(void) {
    memmove(trace.text, trace.text + trace.rest, trace.used - trace.rest);
    trace.used -= trace.rest, trace.rest = 0;
    ssize_t got = read(STDIN_FILENO, trace.text + trace.used, ROOM - trace.used);
    if (got < 0 && errno != EINTR) err(FAILED, "the trace can't be read");
    if (got > 0) trace.used += (size_t)got;
    take_trace(got == 0);
    logs[0].written = logs[1].written = 0;
    return got || trace.ready;
}

static bool has_all(const struct log *log) { return log->to < 0 || log->written == trace.ready; }

// A log that has gone away has said why; the trace is not read on.
static void write_trace(struct log *log) {
    ssize_t put = write(log->to, trace.text + log->written, trace.ready - log->written);
    if (put >= 0) log->written += (size_t)put;
    else if (errno == EPIPE) exit(0);
    else if (errno != EAGAIN && errno != EINTR) err(FAILED, "the trace can't be handed out");
}

static void close_end(int *descriptor) {
    close(*descriptor);
    *descriptor = -1;
}

// A wider pipe, where it may be one, lets the processes wait less for each other.
static void widen(int pipe) { fcntl(pipe, F_SETPIPE_SZ, PIPE); }

static void take_log(struct log *log, const char *to, const char *from) {
    log->to = atoi(to), log->from = atoi(from);
    fcntl(log->to, F_SETFL, O_NONBLOCK);
    widen(log->to), widen(log->from);
}
