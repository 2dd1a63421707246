/* Walks over memory in several manners, for tests/against_cachegrind. It uses no library and reads
   and writes aligned words alone, so that no access touches two blocks. */
typedef unsigned long word;
#define N 4096

static word table[N] __attribute__((aligned(4096)));
static unsigned next[N] __attribute__((aligned(4096)));
static word state = 1;

static word drawn(void)
{
    return (state = state * 6364136223846793005ul + 1442695040888963407ul) >> 33;
}

static void walk(void) {
    for (int i = 0; i < N; i++) table[i] = drawn();
    for (int i = 0; i < N; i++) next[i] = drawn() % N;
    for (int stride = 1; stride <= 512; stride *= 8)
        for (int i = 0; i < 2000; i++) table[i * stride % N] += i;
    for (unsigned at = 0, i = 0; i < 3000; i++) at = next[at] ^ (table[at] & 7);
    for (int i = 0; i < 3000; i++) table[drawn() % 700] ^= table[drawn() % N];
    for (int round = 0; round < 3; round++)
        for (int i = 0; i < 1000; i++) next[i] = next[N - 1 - i];
}

__attribute__((force_align_arg_pointer, noreturn)) void _start(void) {
    walk();
    __asm__ volatile("syscall" : : "a"(60), "D"(0));
    __builtin_unreachable();
}
