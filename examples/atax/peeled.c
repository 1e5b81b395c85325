// atax: y = A' (A x), where A' is A transposed.
// The first row is peeled and joined with the start at 0.0; the context says that there is a first row.
// Equal: y[j] is still 0.0, then row 0, then the other rows in order.
#pragma affine context M >= 1
void atax(int M, int N, double A[M][N], double x[N], double y[N]) {
  double tmp[M];
  tmp[0] = 0.0;
  for (int j = 0; j < N; j++)
    tmp[0] += A[0][j] * x[j];
  for (int j = 0; j < N; j++)
    y[j] = 0.0 + A[0][j] * tmp[0];
  for (int i = 1; i < M; i++) {
    tmp[i] = 0.0;
    for (int j = 0; j < N; j++)
      tmp[i] += A[i][j] * x[j];
    for (int j = 0; j < N; j++)
      y[j] += A[i][j] * tmp[i];
  }
}
