// Writes to `inside` while `f` is called, and else to `outside`. What it does is its argument.
#include <pthread.h>
#include <setjmp.h>
#include <stdlib.h>
#include <string.h>

volatile int inside[100], outside[100];
static jmp_buf away;

__attribute__((noinline)) void helper(int i) { inside[i] = 1; }
__attribute__((noinline)) void *f(int depth) {
    helper(depth);
    if (depth == 9) exit(0);
    if (depth == 8) longjmp(away, 1);
    if (depth) f(depth - 1);
    inside[10 + depth] = 1;
    return 0;
}
__attribute__((noinline)) void *outer(int depth) {
    outside[2] = 1;
    return f(depth);
}
static void *in_a_thread(void *none) {
    (void)none;
    f(1);
    outside[3] = 1;
    return 0;
}

int main(int count, char **words) {
    const char *way = count > 1 ? words[1] : "";
    void *(*volatile by_pointer)(int) = f;
    pthread_t other;
    outside[0] = 1;
    if (!strcmp(way, "thread"))
        return pthread_create(&other, 0, in_a_thread, 0) || pthread_join(other, 0);
    if (!strcmp(way, "exit")) f(9);
    if (!strcmp(way, "jump away")) return setjmp(away) ? (outside[4] = 1, 0) : (f(8), 1);
    if (!strcmp(way, "never")) return 0;
    for (int i = 0; i < 2; i++) {
        outside[1] = 1;
        i ? by_pointer(i) : f(i);
        outside[5] = 1;
    }
    outer(2);
    outside[6] = 1;
    return 0;
}
