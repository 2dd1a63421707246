/* Transposes a matrix of 32 by 32 numbers, first row by row and then in blocks of 8 by 8.
   Only what happens between the two marks is kept of its trace: see trace.sh. */
#define N 32
#define BLOCK 8

volatile char mark;
int a[N][N] __attribute__((aligned(4096))), b[N][N] __attribute__((aligned(4096)));

static void by_rows(void) {
    for (int i = 0; i < N; i++)
        for (int j = 0; j < N; j++)
            b[j][i] = a[i][j];
}

static void by_blocks(void) {
    for (int row = 0; row < N; row += BLOCK)
        for (int column = 0; column < N; column += BLOCK)
            for (int i = row; i < row + BLOCK; i++)
                for (int j = column; j < column + BLOCK; j++)
                    b[j][i] = a[i][j];
}

int main(int count, char **words) {
    (void)words;
    mark = 1;
    if (count > 1) by_blocks(); else by_rows();
    mark = 2;
    return 0;
}
