// jacobi-2d: T double sweeps of the five-point mean over a square, the first sweep in strips of 4 columns.
// Wrong: a strip ends with j < jt + 3, one short, so column 4 of B keeps its old values.
// B is different at [1][4] and A, which reads it, at [1][3], where N is 6 or more.
void jacobi_2d(int T, int N, double A[N][N], double B[N][N]) {
  int t, i, j, jt;
  for (t = 0; t < T; t++) {
    for (i = 1; i < N - 1; i++)
      for (jt = 1; jt < N - 1; jt += 4)
        for (j = jt; j < jt + 3 && j < N - 1; j++)
          B[i][j] = 0.2 * (A[i][j] + A[i][j - 1] + A[i][j + 1] + A[i + 1][j] + A[i - 1][j]);
    for (i = 1; i < N - 1; i++)
      for (j = 1; j < N - 1; j++)
        A[i][j] = 0.2 * (B[i][j] + B[i][j - 1] + B[i][j + 1] + B[i + 1][j] + B[i - 1][j]);
  }
}
