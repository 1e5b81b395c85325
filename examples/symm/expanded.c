// symm: C = beta C + alpha A B, with A symmetric and stored on the diagonal and below.
// The scalar t becomes an array with an element for each (i, j), which lets all sums t go into a nest of their own.
// Equal: the sums read A and B alone, and the rest keeps its order.
void symm(int M, int N, double alpha, double beta, double C[M][N], double A[M][M], double B[M][N]) {
  double t[M][N];
  int i, j, k;
  for (i = 0; i < M; i++)
    for (j = 0; j < N; j++) {
      t[i][j] = 0.0;
      for (k = 0; k < i; k++)
        t[i][j] += B[k][j] * A[i][k];
    }
  for (i = 0; i < M; i++)
    for (j = 0; j < N; j++) {
      for (k = 0; k < i; k++)
        C[k][j] += alpha * B[i][j] * A[i][k];
      C[i][j] = beta * C[i][j] + alpha * B[i][j] * A[i][i] + alpha * t[i][j];
    }
}
