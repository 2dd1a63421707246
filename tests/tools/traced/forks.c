// Writes before, while and after a forked child writes others; a second becomes another program.
#include <stdio.h>
#include <sys/wait.h>
#include <unistd.h>

enum { COUNT = 9001 };
volatile unsigned parents[3][COUNT], childs[COUNT];

static void fill(volatile unsigned *numbers) {
    for (int i = 0; i < COUNT; i++) numbers[i] = 1;
}

int main(void) {
    int status;
    fill(parents[0]);
    pid_t child = fork();
    if (!child) {
        fill(childs);
        write(1, "child\n", 6);
        _exit(5);
    }
    fill(parents[1]);
    waitpid(child, &status, 0);
    if (!fork()) {
        fill(childs);
        execl("/bin/echo", "echo", "another", (char *)0);
    }
    wait(0);
    fill(parents[2]);
    return WEXITSTATUS(status);
}
