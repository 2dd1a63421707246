/* Sorts 32 numbers by merging. Of its trace what is between the two marks is kept: see trace.sh. */
#define N 32

volatile char mark;
unsigned numbers[N] __attribute__((aligned(4096))), room[N] __attribute__((aligned(4096)));

static void sort(int from, int to) {
    if (to - from < 2) return;
    int middle = (from + to) / 2, left = from, right = middle;
    sort(from, middle);
    sort(middle, to);
    for (int at = from; at < to; at++)
        room[at] = right == to || (left < middle && numbers[left] <= numbers[right])
            ? numbers[left++] : numbers[right++];
    for (int at = from; at < to; at++) numbers[at] = room[at];
}

int main(void) {
    unsigned word = 1;
    for (int i = 0; i < N; i++) numbers[i] = word = word * 1664525u + 1013904223u;
    mark = 1;
    sort(0, N);
    mark = 2;
    return 0;
}
