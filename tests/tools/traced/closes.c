// Closes all descriptors that it doesn't know, as daemons do; its own file may get such a number.
#include <fcntl.h>
#include <unistd.h>

volatile unsigned numbers[20000];

int main(int count, char **words) {
    for (int i = 0; i < 10000; i++) numbers[i] = 1;
    for (int i = 3; i < 1024; i++) close(i);
    if (count < 2) return 2;
    for (int i = 3; i < 40; i++) {
        int file = open(words[1], O_WRONLY | O_CREAT | O_APPEND, 0666);
        if (file < 0 || write(file, "own\n", 4) != 4) return 1;
    }
    for (int i = 10000; i < 20000; i++) numbers[i] = 1;
    return 0;
}
