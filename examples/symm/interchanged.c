// symm: C = beta C + alpha A B, with A symmetric and stored on the diagonal and below.
// The loops over i and j are interchanged: one column of C after the other.
// Equal: a column of C reads no other one, and within it the rows keep their order.
void symm(int M, int N, double alpha, double beta, double C[M][N], double A[M][M], double B[M][N]) {
  double t;
  int i, j, k;
  for (j = 0; j < N; j++)
    for (i = 0; i < M; i++) {
      t = 0.0;
      for (k = 0; k < i; k++) {
        C[k][j] += alpha * B[i][j] * A[i][k];
        t += B[k][j] * A[i][k];
      }
      C[i][j] = beta * C[i][j] + alpha * B[i][j] * A[i][i] + alpha * t;
    }
}
