// atax: y = A' (A x), where A' is A transposed.
// The loop over the rows is split in two: first all of A x, then the product with A'.
// Equal: the second part reads tmp[i] alone, and the first doesn't read y.
void atax(int M, int N, double A[M][N], double x[N], double y[N]) {
  double tmp[M];
  for (int j = 0; j < N; j++)
    y[j] = 0.0;
  for (int i = 0; i < M; i++) {
    tmp[i] = 0.0;
    for (int j = 0; j < N; j++)
      tmp[i] += A[i][j] * x[j];
  }
  for (int i = 0; i < M; i++)
    for (int j = 0; j < N; j++)
      y[j] += A[i][j] * tmp[i];
}
