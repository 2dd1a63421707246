/* Three threads, each changing an array of its own, in its own function without system calls. */
#include <pthread.h>
#include <stddef.h>

#define SIZE 1000
#ifndef ROUNDS
#define ROUNDS 120
#endif

static pthread_barrier_t start;

#define THREAD(name, array)                                              \
    volatile int array[SIZE];                                            \
    __attribute__((noinline)) void *name(void *none) {                   \
        pthread_barrier_wait(&start);                                    \
        for (int round = 0; round < ROUNDS; round++)                     \
            for (int i = 0; i < SIZE; i++) array[i] = array[i] + round;  \
        return none;                                                     \
    }

THREAD(first, first_array)
THREAD(second, second_array)
THREAD(third, third_array)

int main(void) {
    pthread_t threads[3];
    void *(*const functions[])(void *) = {first, second, third};
    pthread_barrier_init(&start, NULL, 3);
    for (int i = 0; i < 3; i++) pthread_create(&threads[i], NULL, functions[i], NULL);
    for (int i = 0; i < 3; i++) pthread_join(threads[i], NULL);
    return 0;
}
