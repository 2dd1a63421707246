// Reads and writes its own static data as is plain from this text: the trace must have just that.
volatile unsigned numbers[1000];
volatile unsigned long long longs[10];
volatile unsigned char bytes[3];

int main(void) {
    for (int i = 0; i < 1000; i++) numbers[i] = 7;     // 1000 writes
    for (int i = 999; i >= 0; i -= 3) (void)numbers[i]; // 334 reads, downwards
    for (int i = 0; i < 10; i++) longs[i] += 1;        // each a read and a write
    bytes[2] = bytes[0];
    return 0;
}
