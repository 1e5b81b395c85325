// trmm: B = alpha A' B, with A lower triangular, ones on its diagonal; A' is A transposed.
// The nest is split: all sums first, then all scaling.
// Equal: a sum reads rows below its own, and these were not scaled yet in the original either.
void trmm(int M, int N, double alpha, double A[M][M], double B[M][N]) {
  int i, j, k;
  for (i = 0; i < M; i++)
    for (j = 0; j < N; j++)
      for (k = i + 1; k < M; k++)
        B[i][j] += A[k][i] * B[k][j];
  for (i = 0; i < M; i++)
    for (j = 0; j < N; j++)
      B[i][j] = alpha * B[i][j];
}
