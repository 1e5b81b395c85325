// syrk: C = beta C + alpha A A', on the diagonal and below; A' is A transposed.
// The triangle is cut into tiles of 32 by 32 that are counted, those on the diagonal cut off by j <= i, and so is k.
// Equal: each element is scaled first, and takes its products in the order of k.
void syrk(int N, int M, double alpha, double beta, double C[N][N], double A[N][M]) {
  int i, j, k, t1, t2, t3;
  for (t1 = 0; t1 <= floord(N - 1, 32); t1++)
    for (t2 = 0; t2 <= t1; t2++)
      for (i = 32*t1; i <= 32*t1 + 31 && i < N; i++)
        for (j = 32*t2; j <= 32*t2 + 31 && j <= i; j++)
          C[i][j] *= beta;
  for (t1 = 0; t1 <= floord(N - 1, 32); t1++)
    for (t2 = 0; t2 <= t1; t2++)
      for (t3 = 0; t3 <= floord(M - 1, 32); t3++)
        for (i = 32*t1; i <= 32*t1 + 31 && i < N; i++)
          for (k = 32*t3; k <= 32*t3 + 31 && k < M; k++)
            for (j = 32*t2; j <= 32*t2 + 31 && j <= i; j++)
              C[i][j] += alpha * A[i][k] * A[j][k];
}
