/* A library, and with USER the program that uses it. */
#include <stddef.h>

static inline int twice(int number) { return 2 * number; }

#ifdef USER
long sum_of(const int *numbers, size_t count);
static int numbers[1000];

int main(void) {
    for (int i = 0; i < 1000; i++) numbers[i] = twice(i) ^ 5;
    return sum_of(numbers, 1000) == 0;
}
#else
long sum_of(const int *numbers, size_t count) {
    long sum = 0;
    for (size_t i = 0; i < count; i++) sum += twice(numbers[i]) / 2;
    return sum;
}
#endif
