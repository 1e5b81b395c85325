// trisolv: the solution x of L x = b, with L lower triangular.
// The start has its own loop, and the loops are interchanged: each x[j], once known, is subtracted from all rows below.
// Equal: x[i] still has the columns subtracted in the order of j and is divided last.
void trisolv(int N, double L[N][N], double x[N], double b[N]) {
  int i, j;
  for (i = 0; i < N; i++)
    x[i] = b[i];
  for (j = 0; j < N; j++) {
    x[j] = x[j] / L[j][j];
    for (i = j + 1; i < N; i++)
      x[i] -= L[i][j] * x[j];
  }
}
