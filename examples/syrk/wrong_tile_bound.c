// syrk: C = beta C + alpha A A', on the diagonal and below, in tiles of 3 by 3.
// Wrong: a tile ends with j < jt + 2, one short, so every third column is left out.
// Different at element [2][2], the first one in column 2, where N is 3 or more.
void syrk(int N, int M, double alpha, double beta, double C[N][N], double A[N][M]) {
  int i, j, k, it, jt;
  for (it = 0; it < N; it += 3)
    for (jt = 0; jt <= it; jt += 3)
      for (i = it; i < it + 3 && i < N; i++)
        for (j = jt; j < jt + 2 && j <= i; j++) {
          C[i][j] *= beta;
          for (k = 0; k < M; k++)
            C[i][j] += alpha * A[i][k] * A[j][k];
        }
}
