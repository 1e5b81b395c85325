// atax: y = A' (A x), where A' is A transposed.
// The original: row after row, the product with x is formed and added into y.
void atax(int M, int N, double A[M][N], double x[N], double y[N]) {
  double tmp[M];
  int i, j;
  for (j = 0; j < N; j++)
    y[j] = 0.0;
  for (i = 0; i < M; i++) {
    tmp[i] = 0.0;
    for (j = 0; j < N; j++)
      tmp[i] += A[i][j] * x[j];
    for (j = 0; j < N; j++)
      y[j] += A[i][j] * tmp[i];
  }
}
