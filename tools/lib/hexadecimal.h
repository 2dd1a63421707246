// Hexadecimal numbers in a text, for by-line.c and to-din.c.
#include <stdint.h>

// a digit's value plus 1; 0 for other bytes
static const unsigned char digit_of[256] = {
    ['0'] = 1, 2, 3, 4, 5, 6, 7, 8, 9, 10,
    ['A'] = 11, 12, 13, 14, 15, 16, ['a'] = 11, 12, 13, 14, 15, 16};

static unsigned hexadecimal_digit(char c) { return digit_of[(unsigned char)c]; }

// Returns what stands behind the digits, of which there may be none.
static const char *past_hexadecimal(const char *at, uint64_t *number) {
    uint64_t sum = 0;
    for (unsigned digit; (digit = hexadecimal_digit(*at)); at++) sum = sum << 4 | (digit - 1);
    *number = sum;
    return at;
}
