// symm: C = beta C + alpha A B, with A symmetric and stored on the diagonal and below.
// Wrong: t starts at 0.0 once a row, and from the second column on the sum of the column before is still in it.
// Different at element [1][1]: row 0 adds nothing to t, and column 0 is the first one of its row.
void symm(int M, int N, double alpha, double beta, double C[M][N], double A[M][M], double B[M][N]) {
  double t;
  int i, j, k;
  for (i = 0; i < M; i++) {
    t = 0.0;
    for (j = 0; j < N; j++) {
      for (k = 0; k < i; k++) {
        C[k][j] += alpha * B[i][j] * A[i][k];
        t += B[k][j] * A[i][k];
      }
      C[i][j] = beta * C[i][j] + alpha * B[i][j] * A[i][i] + alpha * t;
    }
  }
}
