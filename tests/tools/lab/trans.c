/* Functions for part B of the cache lab, for the tests of `lab-transpose`: row by row, in blocks of
 * 8 by 8 with the diagonal last, and one that is wrong, or with -DLOOPS has no end. */
#include "cachelab.h"

static void by_rows(int M, int N, int A[N][M], int B[M][N])
{
    int i, j, element;
    for (i = 0; i < N; i++)
        for (j = 0; j < M; j++) {
            element = A[i][j];
            B[j][i] = element;
        }
}

static void by_blocks(int M, int N, int A[N][M], int B[M][N])
{
    for (int i = 0; i < N; i += 8)
        for (int j = 0; j < M; j += 8)
            for (int k = i; k < i + 8 && k < N; k++) {
                int diagonal = -1, element = 0;
                for (int l = j; l < j + 8 && l < M; l++)
                    if (k == l)
                        diagonal = k, element = A[k][l];
                    else
                        B[l][k] = A[k][l];
                if (diagonal >= 0)
                    B[diagonal][diagonal] = element;
            }
}

static void wrong(int M, int N, int A[N][M], int B[M][N])
{
    B[0][0] = A[0][0];
#ifdef LOOPS
    for (;;)
        B[0][0]++;
#endif
}

void registerFunctions(void)
{
    registerTransFunction(by_rows, "row by row");
    registerTransFunction(by_blocks, "in blocks");
    registerTransFunction(wrong, "\033[31mwrong");
}
