// gesummv: y = alpha A x + beta B x.
// The nest is split into three: A x, B x, and the combination of both.
// Equal: the parts meet in tmp[i] and y[i] alone, in the same order as before.
void gesummv(int N, double alpha, double beta, double A[N][N], double B[N][N], double x[N], double y[N]) {
  double tmp[N];
  for (int i = 0; i < N; i++) {
    tmp[i] = 0.0;
    for (int j = 0; j < N; j++)
      tmp[i] += A[i][j] * x[j];
  }
  for (int i = 0; i < N; i++) {
    y[i] = 0.0;
    for (int j = 0; j < N; j++)
      y[i] += B[i][j] * x[j];
  }
  for (int i = 0; i < N; i++)
    y[i] = alpha * tmp[i] + beta * y[i];
}
