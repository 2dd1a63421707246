/* Functions for part B of the cache lab that fail, for the tests of `lab-transpose`. A good one
 * stands before and after them. -DSPINS registers one alone that has no end. */
#include "cachelab.h"
#include <stdio.h>
#include <stdlib.h>
#include <sys/wait.h>
#include <unistd.h>

static void good(int M, int N, int A[N][M], int B[M][N])
{
    for (int i = 0; i < N; i++)
        for (int j = 0; j < M; j++)
            B[j][i] = A[i][j];
}

static void exits(int M, int N, int A[N][M], int B[M][N])
{
    good(M, N, A, B);
    exit(0);
}

static void crashes(int M, int N, int A[N][M], int B[M][N])
{
    B[M - 1][N - 1] = A[0][0];
    *(volatile int *)8 = 1;
}

static void changes(int M, int N, int A[N][M], int B[M][N])
{
    good(M, N, A, B);
    A[N - 1][M - 1] = 0;
}

static void beyond_B(int M, int N, int A[N][M], int B[M][N])
{
    good(M, N, A, B);
    B[M][1] = A[0][0];
}

static void beyond_A(int M, int N, int A[N][M], int B[M][N])
{
    good(M, N, A, B);
    A[0][-2] = 0;
}

static void before_B(int M, int N, int A[N][M], int B[M][N])
{
    good(M, N, A, B);
    B[0][-1] = A[0][0];
}

static void child(int M, int N, int A[N][M], int B[M][N])
{
    if (fork())
        wait(NULL);
    else
        good(M, N, A, B);
}

static void prints(int M, int N, int A[N][M], int B[M][N])
{
    good(M, N, A, B);
    fprintf(stderr, "\n@ 0 x\n@ 1 2 3 4\n");
    printf("right\n");
    fclose(stderr);
}

static void spins(int M, int N, int A[N][M], int B[M][N])
{
    good(M, N, A, B);
    for (volatile int i = 0;; i++)
        ;
}

void registerFunctions(void)
{
#ifdef SPINS
    registerTransFunction(spins, "spins");
    return;
#endif
#ifdef REGISTERS_BADLY
    abort();
#endif
    registerTransFunction(good, "before");
    registerTransFunction(exits, "exits");
    registerTransFunction(crashes, "crashes");
    registerTransFunction(changes, "changes");
    registerTransFunction(beyond_B, "beyond B");
    registerTransFunction(beyond_A, "beyond A");
    registerTransFunction(prints, "prints\n@ 0");
    registerTransFunction(before_B, "before B");
    registerTransFunction(child, "child");
    registerTransFunction(good, "after");
    (void)spins;
}
