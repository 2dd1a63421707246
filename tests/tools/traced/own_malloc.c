// A program with an allocator of its own, which frees nothing.
#include <stdlib.h>
#include <string.h>

#ifndef VISIBILITY
#define VISIBILITY "default"
#endif
#define OWN __attribute__((visibility(VISIBILITY)))
static char room[1 << 20];
static size_t used;

OWN void *malloc(size_t size) {
    void *block = room + used;
    used += (size + 15) / 16 * 16;
    return block;
}
OWN void free(void *block) { (void)block; }
OWN void *calloc(size_t count, size_t size) { return malloc(count * size); }
OWN void *realloc(void *block, size_t size) {
    void *now = malloc(size);
    if (block) memcpy(now, block, size);
    return now;
}

int main(void) {
    volatile char *block = malloc(100);  // own
    block[3] = 1;
    return 0;
}
