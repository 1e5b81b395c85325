// trisolv: the solution x of L x = b, with L lower triangular.
// The columns of a row are cut into strips of 4 that are counted; floord gives the last strip before the diagonal.
// Equal: each row takes what is known in the order of j.
void trisolv(int N, double L[N][N], double x[N], double b[N]) {
  int i, j, jt;
  for (i = 0; i < N; i++) {
    x[i] = b[i];
    for (jt = 0; jt <= floord(i - 1, 4); jt++)
      for (j = 4*jt; j <= 4*jt + 3 && j <= i - 1; j++)
        x[i] -= L[i][j] * x[j];
    x[i] = x[i] / L[i][i];
  }
}
