// gesummv: y = alpha A x + beta B x.
// The array tmp is removed: two scalars hold the sums, and y is assigned once.
// Equal: the sums of a row are read in that row alone.
void gesummv(int N, double alpha, double beta, double A[N][N], double B[N][N], double x[N], double y[N]) {
  double a, b;
  for (int i = 0; i < N; i++) {
    a = 0.0;
    b = 0.0;
    for (int j = 0; j < N; j++) {
      a += A[i][j] * x[j];
      b += B[i][j] * x[j];
    }
    y[i] = alpha * a + beta * b;
  }
}
