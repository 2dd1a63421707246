// Writes 10007 numbers of its own, more than go in two blocks of trace, and ends as it is told.
#include <pthread.h>
#include <signal.h>
#include <stdio.h>
#include <stdlib.h>
#include <string.h>
#include <sys/syscall.h>
#include <unistd.h>

volatile unsigned numbers[10007];

static volatile sig_atomic_t interrupts;

static void on_interrupt(int number) { interrupts += number == SIGINT; }

// Ends with 129 and how many interrupts come within some time after the first one.
static void count_interrupts(void) {
    signal(SIGINT, on_interrupt);
    puts("spins"), fflush(stdout);
    while (!interrupts) usleep(1000);
    usleep(300000);
    exit(129 + interrupts);
}

static void *end_all(void *status) {
    syscall(SYS_exit_group, *(int *)status);
    return 0;
}

static void *wait_for_ever(void *unused) {
    for (;;) pause();
    return unused;
}

static void end(const char *way) {
    int status = 7;
    pthread_t thread;
    if (!strcmp(way, "_exit")) _exit(status);
    if (!strcmp(way, "abort")) abort();
    if (!strcmp(way, "segment")) *(volatile int *)8 = 1;
    if (!strcmp(way, "kill")) kill(getpid(), SIGKILL);
    if (!strcmp(way, "exec")) execl("/bin/sh", "sh", "-c", "exit 7", (char *)0);
    if (!strcmp(way, "spin") && write(1, "spins\n", 6)) for (;;) status++;
    if (!strcmp(way, "interrupt")) count_interrupts();
    if (!strcmp(way, "last")) syscall(SYS_exit, status);  // this thread, which is the last
    if (!strcmp(way, "beside")) pthread_create(&thread, 0, wait_for_ever, 0);
    if (!strcmp(way, "thread")) {
        pthread_create(&thread, 0, end_all, &status);
        for (;;) pause();
    }
    exit(status);
}

int main(int count, char **words) {
    for (unsigned i = 0; i < sizeof numbers / sizeof *numbers; i++) numbers[i] = i;
    end(count > 1 ? words[1] : "");
}
