// atax: y = A' (A x), with the rows taken from the last to the first.
// Wrong: y[j] is carried from row to row, so its sum is formed in the opposite order.
// Different at the first element where M is 2 or more; a declaration that + is commutative would not help.
void atax(int M, int N, double A[M][N], double x[N], double y[N]) {
  double tmp[M];
  for (int j = 0; j < N; j++)
    y[j] = 0.0;
  for (int i = M - 1; i >= 0; i--) {
    tmp[i] = 0.0;
    for (int j = 0; j < N; j++)
      tmp[i] += A[i][j] * x[j];
    for (int j = 0; j < N; j++)
      y[j] += A[i][j] * tmp[i];
  }
}
