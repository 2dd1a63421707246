/* Says where it stores and what it reads, and a line that looks like one of a trace. Stores there
 * ten times; its child stores there a thousand times. Ends with status 7. */
#include <stdio.h>
#include <sys/wait.h>
#include <unistd.h>

static volatile long there;

int main(void)
{
    char text[9];
    printf("%p %s L 77,1\n", (void *)&there, fgets(text, sizeof text, stdin));
    fflush(stdout);
    if (fork() == 0) {
        for (int i = 0; i < 1000; i++)
            there = i;
        return 0;
    }
    for (int i = 0; i < 10; i++)
        there = i;
    wait(NULL);
    return 7;
}
