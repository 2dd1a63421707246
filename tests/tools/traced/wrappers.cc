// Blocks that a pool gives, through functions each of which ends by a call of the next.
#include <cstdlib>
#define APART __attribute__((noinline))

namespace pool {
struct Arena {
    APART void *get(size_t size);
    APART void *zeroed(size_t size) { return get(size + 8); }  // zeroed
};
void *Arena::get(size_t size) { return std::malloc(size); }  // get
}

template <class T> APART T *make(pool::Arena &arena, int count) {
    return static_cast<T *>(arena.zeroed(count * sizeof(T)));  // make
}

static void *wrap(size_t size) { return std::malloc(size); }  // wrap

int main(int count, char **) {
    pool::Arena arena;
    volatile long *numbers = make<long>(arena, 300 * count);  // numbers
    volatile double *values = make<double>(arena, 200 * count);  // values
    volatile char *bytes = (char *)wrap(100 * count);  // bytes
    for (int i = 0; i < 300; i++) numbers[i] = i;
    for (int i = 0; i < 200; i++) values[i] = i;
    for (int i = 0; i < 100; i++) bytes[i] = 1;
    return 0;
}
