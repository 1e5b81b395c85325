// atax: y = A' (A x), where A' is A transposed.
// The array tmp is removed; one scalar holds the product of the row at hand.
// Equal: tmp[i] is never read after turn i.
void atax(int M, int N, double A[M][N], double x[N], double y[N]) {
  double t;
  for (int j = 0; j < N; j++)
    y[j] = 0.0;
  for (int i = 0; i < M; i++) {
    t = 0.0;
    for (int j = 0; j < N; j++)
      t += A[i][j] * x[j];
    for (int j = 0; j < N; j++)
      y[j] += A[i][j] * t;
  }
}
