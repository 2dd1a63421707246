// Stores numbers of its own, round after round, while a clock and pages that may not be written yet
// interrupt it. Says the rounds, the ticks of the clock and the faults of pages.
#include <signal.h>
#include <stdint.h>
#include <stdio.h>
#include <sys/mman.h>
#include <sys/time.h>

enum { COUNT = 20000, TICKS = 5, PAGE = 4096 };
volatile unsigned numbers[COUNT] __attribute__((aligned(PAGE)));
volatile unsigned ticks, faults;

static void on_tick(int number) {
    (void)number;
    ticks++;
}

static void on_fault(int number, siginfo_t *info, void *context) {
    (void)number, (void)context;
    faults++;
    mprotect((void *)((uintptr_t)info->si_addr & -PAGE), PAGE, PROT_READ | PROT_WRITE);
}

int main(void) {
    struct sigaction tick = {.sa_handler = on_tick};
    struct sigaction fault = {.sa_sigaction = on_fault, .sa_flags = SA_SIGINFO};
    struct itimerval clock = {{0, 1000}, {0, 1000}}, none = {{0, 0}, {0, 0}};
    unsigned rounds = 0;
    sigaction(SIGALRM, &tick, 0);
    sigaction(SIGSEGV, &fault, 0);
    mprotect((void *)numbers, sizeof numbers, PROT_READ);
    setitimer(ITIMER_REAL, &clock, 0);
    for (; ticks < TICKS; rounds++)
        for (int i = 0; i < COUNT; i++) numbers[i] = 1;
    setitimer(ITIMER_REAL, &none, 0);
    printf("%u %u %u\n", rounds, ticks, faults);
    return 0;
}
