// syrk: C = beta C + alpha A A', in tiles of 32 by 32 that are counted.
// Wrong: the tiles that are scaled end before the diagonal, at t1 - 1.
// Different at [0][0] wherever N is 1 or more.
void syrk(int N, int M, double alpha, double beta, double C[N][N], double A[N][M]) {
  int i, j, k, t1, t2, t3;
  for (t1 = 0; t1 <= floord(N - 1, 32); t1++)
    for (t2 = 0; t2 <= t1 - 1; t2++)
      for (i = 32*t1; i <= 32*t1 + 31 && i < N; i++)
        for (j = 32*t2; j <= 32*t2 + 31 && j <= i; j++)
          C[i][j] *= beta;
  for (t1 = 0; t1 <= floord(N - 1, 32); t1++)
    for (t2 = 0; t2 <= t1; t2++)
      for (t3 = 0; t3 <= floord(M - 1, 32); t3++)
        for (i = 32*t1; i <= 32*t1 + 31 && i < N; i++)
          for (k = 32*t3; k <= 32*t3 + 31 && k < M; k++)
            for (j = 32*t2; j <= 32*t2 + 31 && j <= i; j++)
              C[i][j] += alpha * A[i][k] * A[j][k];
}
