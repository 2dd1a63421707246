// Two threads take turns, which they give each other by pipes: each fills the next row of numbers.
#include <pthread.h>
#include <unistd.h>

enum { ROWS = 100, COUNT = 10 };
volatile unsigned rows[ROWS][COUNT];
static int pipes[2][2];

static void *work(void *first) {
    char turn = 0;
    for (int row = *(int *)first; row < ROWS; row += 2) {
        if (read(pipes[row % 2][0], &turn, 1) != 1) _exit(1);
        for (int i = 0; i < COUNT; i++) rows[row][i] = 1;
        if (write(pipes[(row + 1) % 2][1], &turn, 1) != 1) _exit(1);
    }
    return 0;
}

int main(void) {
    pthread_t other;
    int even = 0, odd = 1;
    if (pipe(pipes[0]) || pipe(pipes[1]) || write(pipes[0][1], "", 1) != 1) return 1;
    pthread_create(&other, 0, work, &odd);
    work(&even);
    return pthread_join(other, 0);
}
