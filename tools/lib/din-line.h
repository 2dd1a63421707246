// A line of a din trace, written fast, for trace-run.c and to-din.c.
#include <stdint.h>
#include <string.h>

// with the number of a thread and of bytes, which trace-run.c may put behind it
enum { LONGEST_LINE = sizeof "0 0123456789abcdef 4294967295 128" };
static char three_digits[4096][4];  // of each number below 4096, and a byte of no use

// Before the first line.
static void make_digits(void) {
    for (unsigned i = 0; i < 4096; i++)
        for (unsigned place = 0; place < 3; place++)
            three_digits[i][place] = "0123456789abcdef"[i >> (8 - 4 * place) & 15];
}

// Writes up to LONGEST_LINE bytes, of which those behind the line don't matter.
static char *put_line(char *to, char label, uint64_t address) {
    unsigned digits = (67 - (unsigned)__builtin_clzll(address | 1)) / 4;
    address <<= 64 - 4 * digits;  // its first digit is now the topmost
    *to++ = label;
    *to++ = ' ';
    memcpy(to, three_digits[address >> 52], 4);
    memcpy(to + 3, three_digits[address >> 40 & 4095], 4);
    memcpy(to + 6, three_digits[address >> 28 & 4095], 4);
    memcpy(to + 9, three_digits[address >> 16 & 4095], 4);
    if (digits > 12) {
        memcpy(to + 12, three_digits[address >> 4 & 4095], 4);
        to[15] = three_digits[address & 15][2];
    }
    to[digits] = '\n';
    return to + digits + 1;
}
