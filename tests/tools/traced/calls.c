// Writes a number before each of many system calls.
#include <sys/syscall.h>
#include <unistd.h>

enum { COUNT = 70000 };
volatile unsigned char numbers[COUNT];

int main(void) {
    for (int i = 0; i < COUNT; i++) {
        numbers[i] = 1;
        syscall(SYS_getppid);
    }
}
