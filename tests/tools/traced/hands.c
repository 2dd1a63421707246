// Three threads get blocks of the first one by a queue, read them, free them, and have their own.
#include <pthread.h>
#include <stdlib.h>

enum { BLOCKS = 200, THREADS = 3, ROOM = 4, WORDS = 8 };
static pthread_mutex_t lock = PTHREAD_MUTEX_INITIALIZER;
static pthread_cond_t changed = PTHREAD_COND_INITIALIZER;
static void *queue[ROOM];
static int count;
static __thread volatile long turns;

// Puts a block into the queue, or takes one out.
static void *pass(void *block) {
    pthread_mutex_lock(&lock);
    while (count == (block ? ROOM : 0)) pthread_cond_wait(&changed, &lock);
    if (block) queue[count++] = block;
    else block = queue[--count];
    pthread_cond_broadcast(&changed);
    pthread_mutex_unlock(&lock);
    return block;
}

static void *consume(void *own) {
    for (int i = 0; i < BLOCKS; i++) {
        volatile long *given = pass(NULL);
        for (int k = 0; k < WORDS; k++) (void)given[k];
        volatile long *mine = malloc(WORDS * sizeof *mine);  // mine
        mine[1] = 1;
        free((void *)given);
        mine[2] = 2;
        free((void *)mine);
        turns++;
    }
    return own;
}

int main(void) {
    pthread_t threads[THREADS];
    for (int i = 0; i < THREADS; i++) pthread_create(&threads[i], NULL, consume, NULL);
    for (int i = 0; i < THREADS * BLOCKS; i++) {
        volatile long *given = malloc(WORDS * sizeof *given);  // given
        for (int k = 0; k < WORDS; k++) given[k] = k;
        pass((void *)given);
    }
    for (int i = 0; i < THREADS; i++) pthread_join(threads[i], NULL);
    return count;
}
