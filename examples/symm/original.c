// symm: C = beta C + alpha A B, with A symmetric and stored on the diagonal and below.
// The original: each element of A below the diagonal serves twice, once for row k and once, summed in t, for row i.
void symm(int M, int N, double alpha, double beta, double C[M][N], double A[M][M], double B[M][N]) {
  double t;
  int i, j, k;
  for (i = 0; i < M; i++)
    for (j = 0; j < N; j++) {
      t = 0.0;
      for (k = 0; k < i; k++) {
        C[k][j] += alpha * B[i][j] * A[i][k];
        t += B[k][j] * A[i][k];
      }
      C[i][j] = beta * C[i][j] + alpha * B[i][j] * A[i][i] + alpha * t;
    }
}
