// gesummv: y = alpha A x + beta B x.
// The two parts of the last sum are exchanged; the line above the function declares + as commutative.
// Equal by this declaration.
#pragma affine commutative +
void gesummv(int N, double alpha, double beta, double A[N][N], double B[N][N], double x[N], double y[N]) {
  double tmp[N];
  for (int i = 0; i < N; i++) {
    tmp[i] = 0.0;
    y[i] = 0.0;
    for (int j = 0; j < N; j++) {
      tmp[i] += A[i][j] * x[j];
      y[i] += B[i][j] * x[j];
    }
    y[i] = beta * y[i] + alpha * tmp[i];
  }
}
