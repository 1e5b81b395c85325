// trisolv: the solution x of L x = b, with L lower triangular.
// The original: row after row, what is known is subtracted, then the rest is divided.
void trisolv(int N, double L[N][N], double x[N], double b[N]) {
  int i, j;
  for (i = 0; i < N; i++) {
    x[i] = b[i];
    for (j = 0; j < i; j++)
      x[i] -= L[i][j] * x[j];
    x[i] = x[i] / L[i][i];
  }
}
