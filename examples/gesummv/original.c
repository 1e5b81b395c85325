// gesummv: y = alpha A x + beta B x.
// The original: both products of a row are summed side by side, one of them in y itself.
void gesummv(int N, double alpha, double beta, double A[N][N], double B[N][N], double x[N], double y[N]) {
  double tmp[N];
  int i, j;
  for (i = 0; i < N; i++) {
    tmp[i] = 0.0;
    y[i] = 0.0;
    for (j = 0; j < N; j++) {
      tmp[i] += A[i][j] * x[j];
      y[i] += B[i][j] * x[j];
    }
    y[i] = alpha * tmp[i] + beta * y[i];
  }
}
