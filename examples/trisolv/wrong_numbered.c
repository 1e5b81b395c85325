// trisolv: the solution x of L x = b, with the columns of a row in strips of 4 that are counted.
// Wrong: the strips end one too early, at ceild(i - 4, 4) - 1; ceild(i - 4, 4) is floord(i - 1, 4).
// Different at [1] wherever N is 2 or more: x[1] never takes x[0].
void trisolv(int N, double L[N][N], double x[N], double b[N]) {
  int i, j, jt;
  for (i = 0; i < N; i++) {
    x[i] = b[i];
    for (jt = 0; jt <= ceild(i - 4, 4) - 1; jt++)
      for (j = 4*jt; j <= 4*jt + 3 && j <= i - 1; j++)
        x[i] -= L[i][j] * x[j];
    x[i] = x[i] / L[i][i];
  }
}
