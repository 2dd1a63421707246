// Writes another tool's memory trace as din lines: the fast half of to-din, which has the help.
//
//     to-din FORMAT < TRACE > TRACE.din
//
// To add a format, write patterns of its lines, or a function that reads one and puts its accesses;
// give it a row in `formats`, and say in to-din's help how such a trace is made, which lines are
// skipped, and whether it was compared with what the tool writes.
#define _GNU_SOURCE
#include <stdarg.h>
#include <stdint.h>
#include "din-line.h"
#include "filter.h"
#include "hexadecimal.h"

enum { PIECE = 1 << 18, LONGEST = 1 << 24, RECORD = 64, SHOWN = 60 };
enum label { READ = '0', WRITE = '1', FETCH = '2' };

static const char *name;
static char input[LONGEST + 1];  // of this only what the longest line needs is ever touched
static uintmax_t number; // of lines or records that were read
static bool accessed;    // there was an access

// ---- Writing

static const char writing[] = "write failed";

// Ends with a line on standard error. to-din ends the output in a line that is no din line.
static _Noreturn void fail(const char *form, ...) {
    char line[256];
    va_list values;
    va_start(values, form);
    vsnprintf(line, sizeof line, form, values);
    va_end(values);
    fprintf(stderr, "%s: %s\n", name, line);
    finish(name, writing);
    exit(1);
}

static void put(enum label label, uint64_t address) {
    char *to = next_line(name, writing);
    output.used += (size_t)(put_line(to, (char)label, address) - to);
    accessed = true;
}

// ---- The parts of a line

// What is left of a line. Its end is an LF, at which whatever is read ends: few compare with `end`.
struct line { const char *at, *end; };

static bool is_blank(char c) { return c == ' ' || c == '\t'; }
static bool is_digit(char c) { return c >= '0' && c <= '9'; }
static bool is_letter(char c) { return c >= 'a' && c <= 'z'; }
static bool ended(const struct line *line) { return line->at >= line->end; }
static bool word_ended(const struct line *line) { return ended(line) || is_blank(*line->at); }

// Each of these moves on behind what it names, and returns whether that stood there.

static bool text(struct line *line, const char *wanted) {
    const char *at = line->at;
    while (*wanted && *at == *wanted) at++, wanted++;
    if (!*wanted) line->at = at;
    return !*wanted;
}
static bool begins(struct line line, const char *wanted) { return text(&line, wanted); }

static bool blanks(struct line *line) {
    const char *from = line->at, *at = from;
    while (is_blank(*at)) at++;
    line->at = at;
    return at > from;
}

static bool hexadecimal(struct line *line, uint64_t *value) {
    const char *from = line->at;
    line->at = past_hexadecimal(from, value);
    return line->at > from && line->at - from <= 16;
}

static bool address(struct line *line, uint64_t *value) {
    if (!text(line, "0x")) text(line, "0X");
    return hexadecimal(line, value);
}

static bool decimal(struct line *line, uint64_t *value) {
    const char *from = line->at, *at = from;
    uint64_t sum = 0;
    for (; is_digit(*at); at++) {
        unsigned digit = (unsigned)(*at - '0');
        if (sum > (UINT64_MAX - digit) / 10) return false;
        sum = sum * 10 + digit;
    }
    line->at = at;
    *value = sum;
    return at > from;
}

// ---- The formats: each tells whether a line is one of its format, and puts the line's accesses

static bool numbers(struct line line, bool (*reads)(struct line *, uint64_t *)) {
    uint64_t data;
    blanks(&line);
    if (begins(line, "#")) return true;
    if (!reads(&line, &data) || !ended(&line)) return false;
    put(READ, data);
    return true;
}

static bool addresses(struct line line) { return numbers(line, address); }          // 7ffd1230
static bool decimal_addresses(struct line line) { return numbers(line, decimal); }  // 2147291696

// what stands up to the last quotation mark: the disassembly may hold others
static bool execlog_disassembly(struct line *line) {
    const char *from = line->at;
    for (line->at = line->end; line->at > from; line->at--)
        if (line->at[-1] == '"') return true;
    return false;
}

// 0, 0x401000, 0x8b, "mov eax, [rdi]", load, 0x7ffd1230, RAM
static bool execlog(struct line line) {
    uint64_t processor, instruction, code, data;
    if (begins(line, "#")) return true;
    if (!decimal(&line, &processor) || !text(&line, ", ") || !address(&line, &instruction) ||
        !text(&line, ", ") || !address(&line, &code) || !text(&line, ", \"") ||
        !execlog_disassembly(&line)) return false;
    put(FETCH, instruction);
    while (!ended(&line)) {
        if (!text(&line, ", ")) return false;
        const char *from = line.at;
        while (!ended(&line) && *line.at != ',') line.at++;
        bool reads = line.at - from == 4 && !memcmp(from, "load", 4);
        bool writes = line.at - from == 5 && !memcmp(from, "store", 5);
        if (!reads && !writes) continue;  // the name of a device, or a register
        if (!text(&line, ", ") || !address(&line, &data)) return false;
        put(writes ? WRITE : READ, data);
    }
    return true;
}

// ' L 1ffeffe7e,1': what cachesim takes under --format l, and nothing else
static bool lackey(struct line line) {
    uint64_t at, size;
    if (begins(line, "=") || begins(line, "-") || begins(line, "*")) return true;
    blanks(&line);
    char kind = *line.at++;
    bool fetches = kind == 'I', reads = kind == 'L' || kind == 'M';
    bool writes = kind == 'S' || kind == 'M';
    if (!(fetches || reads || writes) || !blanks(&line) || !hexadecimal(&line, &at) ||
        !text(&line, ",")) return false;
    const char *from = line.at;
    if (!decimal(&line, &size) || line.at - from > 9 || !word_ended(&line)) return false;
    if (fetches) put(FETCH, at);
    if (reads) put(READ, at);
    if (writes) put(WRITE, at);
    return true;
}

// ---- Patterns: the formats that follow a description, and were not compared with their tool

// What is found in a line: its access, and flags, of which INST_FETCH makes a read a fetch.
enum { SKIPPED = 0, BY_LETTER = 0, INST_FETCH = 0x100 };
struct found { uint64_t address, flags; int access; };

// zeros that fill the column of an address: 00000x7ffd1230
static void fill(struct line *line) {
    const char *at = line->at;
    while (*at == '0') at++;
    if (at > line->at && (*at == 'x' || *at == 'X')) line->at = at - 1;
}

// what stands before an entry: '  7   2:  3264604 ', '  7: T3264604 ' or 'T3264604 '
static bool drmemtrace_thread(struct line *line) {
    if (is_digit(*line->at)) {
        while (is_digit(*line->at) || is_blank(*line->at)) line->at++;
        if (!text(line, ":")) return false;
        blanks(line);
    }
    const char *from = line->at;
    line->at += strspn(from, "0123456789TW.");
    return line->at > from && blanks(line);
}

// the bytes of a long instruction for which its line had no room: '00 00 40'
static bool bytes(struct line *line) {
    while (hexadecimal_digit(line->at[0]) && hexadecimal_digit(line->at[1])) {
        line->at += 2;
        if (ended(line)) return true;
        if (!blanks(line)) return false;
    }
    return false;
}

// a register's name, x10 (of old versions 'x 5') or c768_mstatus; or vector settings, e32 mf2 l4
static bool spike_name(struct line *line, const char *kinds) {
    if (!*line->at || !strchr(kinds, *line->at)) return false;
    if (!text(line, "mf")) line->at++;
    blanks(line);
    if (!is_digit(*line->at)) return false;
    while (!word_ended(line)) line->at++;
    return true;
}

// the name of a disassembled instruction
static bool spike_instruction(struct line line) {
    return is_letter(*line.at) && !begins(line, "mem") && !spike_name(&line, "xfvcelm");
}

static bool digits(struct line *line) {
    const char *from = line->at;
    while (hexadecimal_digit(*line->at)) line->at++;
    return line->at > from;
}

static bool rest(struct line *line) {
    line->at = line->end;
    return true;
}

// Moves on behind what a letter of a pattern stands for, and returns whether that stood there.
static bool part(struct line *line, char letter, struct found *found) {
    uint64_t ignored;
    switch (letter) {
    case 'a': return address(line, &found->address);
    case 'n': return decimal(line, &found->address);
    case 'x': return address(line, &ignored);
    case 'd': return decimal(line, &ignored);
    case 'f': return decimal(line, &found->flags);
    case 'h': return digits(line) && word_ended(line);  // any number of them
    case 'b': return blanks(line);
    case 's': return blanks(line) || true;              // blanks, perhaps none
    case 'e': return word_ended(line);
    case '*': return rest(line);
    case 'l': return is_letter(*line->at) || *line->at == '<';
    case 'p': fill(line); return text(line, "(nil)") || address(line, &found->address);
    case 't': return drmemtrace_thread(line);
    case 'o': return bytes(line);
    case 'r': return spike_name(line, "xfvc");
    case 'v': return spike_name(line, "elm");
    case 'u': return word_ended(line) && !begins(*line, " 0x");  // no value
    case 'i': return spike_instruction(*line);
    }
    return false;
}

// Letters behind '%' are those parts, one of the letters in {} stands there, what is in [] may be
// missing, and all else stands there as it is. A letter in {} of r, w and i is that of an access.
static bool matches(struct line *line, const char *pattern, struct found *found) {
    for (; *pattern && *pattern != ']'; pattern++) {
        if (*pattern == '%') {
            if (!part(line, *++pattern, found)) return false;
        } else if (*pattern == '{') {
            const char letter = *line->at++, *from = pattern + 1;
            pattern = strchr(from, '}');
            if (!memchr(from, letter, (size_t)(pattern - from))) return false;
            if (letter == 'r' || letter == 'R') found->access = READ;
            if (letter == 'w' || letter == 'W') found->access = WRITE;
            if (letter == 'i') found->access = FETCH;
        } else if (*pattern == '[') {
            struct line inner = *line;
            if (matches(&inner, pattern + 1, found)) *line = inner;
            pattern = strchr(pattern, ']');
        } else if (*line->at++ != *pattern) return false;
    }
    return true;
}

// A line of a format is as the first pattern that it matches to its end, and has its access, or the
// one of a letter.
struct pattern {
    const char *text;
    int access;
};

// r 0x7ffd1230 8
static const struct pattern dinero[] = {
    {"%s{rwimcv}%b%a%b%x%e%*", BY_LETTER},
    {0},
};

//   10   2:  3264604 write        8 byte(s) @ 0x00007ffe5ac78ac8 by PC 0x00007f8b5d1a8093
static const struct pattern drmemtrace[] = {
    {"%s%tifetch%b%d byte(s) @ %x non-fetched instruction%*", SKIPPED},
    {"%s%tifetch%b%d byte(s) @ %a%e%*", FETCH},
    {"%s%tread%b%d byte(s) @ %a%e%*", READ},
    {"%s%twrite%b%d byte(s) @ %a%e%*", WRITE},
    {"%s%tpref%*", SKIPPED},
    {"%s%tiflush %*", SKIPPED},
    {"%s%tdflush %*", SKIPPED},
    {"%s%t%o", SKIPPED},
    {"%s[%t]<%*", SKIPPED},
    {"%s---%*", SKIPPED},
    {"%sOutput format:%*", SKIPPED},
    {"%sView tool %*", SKIPPED},
    {"%s%d%b: total %*", SKIPPED},
    {0},
};

// [5,]r,2147483648,64[,256],1000[,4198400]
static const struct pattern gem5[] = {
    {"[%d,]{rwu},%n,%d,%f,%d[,%d]", BY_LETTER},
    {"[%d,]{rwu},%n,%d,%d", BY_LETTER},
    {0},
};

// memtrace_simple: '0x7ffd1230:  8, w'; memtrace_x86: '0x401000,w,8,0x7ffd1230'
static const struct pattern memtrace[] = {
    {"%a:%b%d, {rw}", BY_LETTER},
    {"%a:%b%d, %l%*", FETCH},  // an instruction's name
    {"%x,{rw},%d,%a", BY_LETTER},
    {"Format:%*", SKIPPED},
    {0},
};

// 0x401000: R 0x7ffd1230 [8 0x1f]
static const struct pattern pin[] = {
    {"%x: {RW}%b%p[%b%d%e%*]", BY_LETTER},
    {"#%*", SKIPPED},
    {0},
};

// core   0: 3 0x0000000080000044 (0x01053023) mem 0x0000000080001000 0x0000000000000007
static const struct pattern spike[] = {
    {"[core%s%d: %s]%x (%x)%b%i%*", SKIPPED},
    {"[core%s%d: %s][{0123456789} ]%a (%x)", FETCH},
    {"core%s%d: %s>>>>%*", SKIPPED},
    {"core%s%d: %sExecuted %*", SKIPPED},
    {"core%s%d: %sexception %*", SKIPPED},
    {"core%s%d: %stval %*", SKIPPED},
    {0},
};
static const struct pattern spike_behind[] = {
    {"%bmem %a 0x%h", WRITE},
    {"%bmem %a%u", READ},
    {"%b%r%b0x%h", SKIPPED},
    {"%b%v", SKIPPED},
    {0},
};

// Some patterns may stand behind others, as often as they do.
static bool take_patterns(const struct pattern *each, const struct pattern *behind,
                          struct line line) {
    while (each->text) {
        struct line left = line;
        struct found found = {0, 0, each->access};
        if (!matches(&left, each->text, &found) || !(ended(&left) || behind)) {
            each++;
            continue;
        }
        if (found.access == READ && found.flags & INST_FETCH) found.access = FETCH;
        if (found.access) put((enum label)found.access, found.address);
        if (ended(&left)) return true;
        line = left, each = behind;
    }
    return false;
}

// 64 bytes: the instruction, two of a branch, 6 registers, 2 places written, 4 read; 0 is no place
static const struct { int at; enum label label; } champsim_fields[] = {
    {32, READ}, {40, READ}, {48, READ}, {56, READ}, {16, WRITE}, {24, WRITE}};

static uint64_t little_endian(const char *bytes) {
    uint64_t value = 0;
    for (int i = 8; i--;) value = value << 8 | (unsigned char)bytes[i];
    return value;
}

static bool champsim(struct line record) {
    if ((record.at[8] | record.at[9]) & ~1) return false;
    put(FETCH, little_endian(record.at));
    for (size_t i = 0; i < sizeof champsim_fields / sizeof *champsim_fields; i++) {
        uint64_t place = little_endian(record.at + champsim_fields[i].at);
        if (place) put(champsim_fields[i].label, place);
    }
    return true;
}

static const struct format {
    const char *name, *whose;
    bool (*takes)(struct line);
    const struct pattern *patterns, *behind;
} formats[] = {
    {"addresses", "addresses", addresses, 0, 0},
    {"addresses --decimal", "decimal addresses", decimal_addresses, 0, 0},
    {"champsim", "ChampSim", champsim, 0, 0},
    {"dinero", "Dinero IV's extended din format", 0, dinero, 0},
    {"drmemtrace", "drmemtrace's tool view", 0, drmemtrace, 0},
    {"execlog", "execlog", execlog, 0, 0},
    {"gem5", "decode_packet_trace.py", 0, gem5, 0},
    {"lackey", "lackey", lackey, 0, 0},
    {"memtrace", "memtrace_simple or memtrace_x86", 0, memtrace, 0},
    {"pin", "pinatrace", 0, pin, 0},
    {"spike", "Spike's commit log", 0, spike, spike_behind},
};

static bool takes(const struct format *format, struct line line) {
    return format->patterns ? take_patterns(format->patterns, format->behind, line)
                            : format->takes(line);
}

// ---- Reading

// the beginning of a line as it may be shown on a terminal
static const char *shown(struct line line) {
    static char start[SHOWN + 1];
    size_t length = 0;
    for (; length < SHOWN && !ended(&line); line.at++)
        start[length++] = *line.at >= ' ' && *line.at <= '~' ? *line.at : '?';
    return start;
}

// Converts the whole lines of the bytes that are held, and returns how many bytes these were.
static size_t lines(const struct format *format, size_t held) {
    char *from = input, *feed, *end;
    for (; (feed = memchr(from, '\n', (size_t)(input + held - from))); from = feed + 1, number++) {
        for (end = feed; end > from && (is_blank(end[-1]) || end[-1] == '\r');) *--end = '\n';
        struct line line = {from, end};
        if (!ended(&line) && !takes(format, line))
            fail("line %ju: not a line of %s: %s", number + 1, format->whose, shown(line));
    }
    return (size_t)(from - input);
}

// The same for records.
static size_t records(const struct format *format, size_t held) {
    const char *from = input;
    for (; input + held - from >= RECORD; from += RECORD, number++)
        if (!format->takes((struct line){from, from + RECORD}))
            fail("record %ju: not a record of %s", number + 1, format->whose);
    return (size_t)(from - input);
}

static int convert(const struct format *format) {
    bool binary = format->takes == champsim;
    const char *unit = binary ? "record" : "line";
    size_t held = 0;
    ssize_t got;
    do {
        if (held == LONGEST) fail("line %ju: %d bytes or more", number + 1, LONGEST);
        got = read_input(input + held, LONGEST - held < PIECE ? LONGEST - held : PIECE);
        if (got < 0) fail("%s %ju: read failed: %s", unit, number + 1, strerror(errno));
        held += (size_t)got;
        if (!got && held && !binary) input[held++] = '\n';  // the last line may be without it
        size_t taken = binary ? records(format, held) : lines(format, held);
        memmove(input, input + taken, held -= taken);
    } while (got);
    if (held) fail("record %ju: cut short: %zu of %d bytes", number + 1, held, RECORD);
    if (number && !accessed) fail("no access in lines 1 to %ju", number);
    finish(name, writing);
    return 0;
}

int main(int count, char **words) {
    if (count != 2) return 2;
    name = words[0];
    begin_filter();
    make_digits();
    for (size_t i = 0; i < sizeof formats / sizeof *formats; i++)
        if (!strcmp(words[1], formats[i].name)) return convert(&formats[i]);
    fail("this is the inner half of to-din");
}
