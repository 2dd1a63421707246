#include <pthread.h>

// Two threads count, each for itself, in places with ROOM bytes between them.
_Alignas(64) struct {
    volatile long count;
    char room[ROOM];
} own[2];

void *work(void *at) {
    for (int i = 0; i < 50000; i++)
        ++*(volatile long *)at;
    return 0;
}

int main(void) {
    pthread_t one, two;
    pthread_create(&one, 0, work, &own[0]);
    pthread_create(&two, 0, work, &own[1]);
    return pthread_join(one, 0) + pthread_join(two, 0);
}
