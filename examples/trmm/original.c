// trmm: B = alpha A' B, with A lower triangular, ones on its diagonal; A' is A transposed.
// The original, in place: row i takes the rows below it, which are still the old ones.
void trmm(int M, int N, double alpha, double A[M][M], double B[M][N]) {
  int i, j, k;
  for (i = 0; i < M; i++)
    for (j = 0; j < N; j++) {
      for (k = i + 1; k < M; k++)
        B[i][j] += A[k][i] * B[k][j];
      B[i][j] = alpha * B[i][j];
    }
}
