// Blocks that pvalloc gave, and those that realloc moves, can't have, and leaves where they are.
#include <malloc.h>
#include <stdint.h>
#include <stdio.h>
#include <stdlib.h>

volatile char steps[2];  // each is written once, where the trace is to show it

static void use(volatile char *block, int from, int count) {
    for (int i = 0; i < count; i++) block[from + i] = 1;
}

int main(void) {
    volatile size_t too_large = SIZE_MAX;
    setvbuf(stdout, NULL, _IONBF, 0);
    char *pages = pvalloc(100);  // pages
    use(pages, 0, 5), use(pages, 4000, 3);

    char *old = malloc(4000), *behind = malloc(4000);  // old
    uintptr_t moved = (uintptr_t)old;
    steps[0] = 1;
    use(old, 100, 6);
    char *large = realloc(old, 9000);  // large
    steps[1] = 1;
    printf("%lx %lx\n", moved, (uintptr_t)large);
    use(large, 8000, 4);
    moved -= (uintptr_t)large;

    char *kept = malloc(700);  // kept
    use(kept, 0, 3);
    if (realloc(kept, too_large)) return 1;
    use(kept, 500, 7);

    char *last = malloc(5000);  // last
    uintptr_t stays = (uintptr_t)last;
    use(last, 0, 9);
    char *longer = realloc(last, 6000);  // longer
    use(longer, 5500, 2);
    stays -= (uintptr_t)longer;

    char *mapped = malloc(300000);  // mapped
    use(mapped, 0, 8);
    char *remapped = realloc(mapped, 3000000);  // remapped
    use(remapped, 2000000, 11);
    free(behind);
    return moved == 0 || stays != 0;
}
