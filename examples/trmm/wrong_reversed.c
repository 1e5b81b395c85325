// trmm: B = alpha A' B, in place, with the rows taken from the last to the first.
// Wrong: row i then takes rows below it that are new already.
// Different at the first element where M is 2 or more; the last row alone is right.
void trmm(int M, int N, double alpha, double A[M][M], double B[M][N]) {
  int i, j, k;
  for (i = M - 1; i >= 0; i--)
    for (j = 0; j < N; j++) {
      for (k = i + 1; k < M; k++)
        B[i][j] += A[k][i] * B[k][j];
      B[i][j] = alpha * B[i][j];
    }
}
