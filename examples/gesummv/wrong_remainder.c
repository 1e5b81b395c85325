// gesummv: y = alpha A x + beta B x, with the loop over j unrolled by 2.
// Wrong: there is no remainder loop, so an odd N leaves the last column out.
// Different at the first element at every odd N; an even N hides it.
void gesummv(int N, double alpha, double beta, double A[N][N], double B[N][N], double x[N], double y[N]) {
  double a, b;
  for (int i = 0; i < N; i++) {
    a = 0.0;
    b = 0.0;
    for (int j = 0; j + 1 < N; j += 2) {
      a += A[i][j] * x[j];
      b += B[i][j] * x[j];
      a += A[i][j + 1] * x[j + 1];
      b += B[i][j + 1] * x[j + 1];
    }
    y[i] = alpha * a + beta * b;
  }
}
