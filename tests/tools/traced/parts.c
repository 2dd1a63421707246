// Writes to `inside` between each call of enter and of leave, and else to `outside`. With the word
// `threads` another thread does so; with `fork` only a forked child calls enter.
#include <pthread.h>
#include <string.h>
#include <sys/wait.h>
#include <unistd.h>

enum { ROUNDS = 3, COUNT = 50 };
volatile unsigned inside[ROUNDS][COUNT], outside[ROUNDS][COUNT];

__attribute__((noinline)) void enter(void) { __asm__ volatile(""); }
__attribute__((noinline)) static void leave(void) { __asm__ volatile(""); }
__attribute__((noinline)) void not_called(void) { __asm__ volatile(""); }

static void *fill(void *numbers) {
    for (int i = 0; i < COUNT; i++) ((volatile unsigned *)numbers)[i] = 1;
    return 0;
}

static void fill_in_a_thread(void *numbers) {
    pthread_t other;
    pthread_create(&other, 0, fill, numbers);
    pthread_join(other, 0);
}

int main(int count, char **words) {
    const char *way = count > 1 ? words[1] : "";
    if (!strcmp(way, "fork")) {
        if (!fork()) enter();
        return wait(0) < 0 ? 5 : 0;
    }
    for (int round = 0; round < ROUNDS; round++) {
        void *numbers[] = {(void *)outside[round], (void *)inside[round]};
        for (int is_inside = 0; is_inside < 2; is_inside++) {
            if (is_inside) enter();
            if (*way) fill_in_a_thread(numbers[is_inside]);
            else fill(numbers[is_inside]);
            if (is_inside) leave();
        }
    }
    return 0;
}
