// Threads that count: each has a counter of its own, beside the others or with ROOM for each; or
// all have ONE.
#include <pthread.h>
#include <stdio.h>

enum { ROUNDS = 20000, COUNTERS = 4 };
#ifndef ROOM
#define ROOM 8
#endif
#ifdef ONE
#define PLACE(i) 0
#else
#define PLACE(i) i
#endif
union counter {
    long count;
    char room[ROOM];
};
union counter counters[COUNTERS] __attribute__((aligned(64)));

void *work(void *own) {
    union counter *counter = own;
    for (int i = 0; i < ROUNDS; i++) __atomic_fetch_add(&counter->count, 1, __ATOMIC_RELAXED);
    return NULL;
}

int main(void) {
    pthread_t threads[COUNTERS];
    long sum = 0;
    for (int i = 0; i < COUNTERS; i++) pthread_create(&threads[i], NULL, work, &counters[PLACE(i)]);
    for (int i = 0; i < COUNTERS; i++) pthread_join(threads[i], NULL);
    for (int i = 0; i < COUNTERS; i++) sum += counters[i].count;
    printf("%ld\n", sum);
    return 0;
}
