// trisolv: the solution x of L x = b, with L lower triangular.
// The first row and, in the others, the first column are peeled; the context says that there is a first row.
// Equal: the same operations in the same order.
#pragma affine context N >= 1
void trisolv(int N, double L[N][N], double x[N], double b[N]) {
  int i, j;
  x[0] = b[0] / L[0][0];
  for (i = 1; i < N; i++) {
    x[i] = b[i] - L[i][0] * x[0];
    for (j = 1; j < i; j++)
      x[i] -= L[i][j] * x[j];
    x[i] = x[i] / L[i][i];
  }
}
