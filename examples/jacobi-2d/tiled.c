// jacobi-2d: T double sweeps of the five-point mean over a square; the border stays.
// Each sweep is cut into tiles of 3 by 2, counted from the first inner row and column.
// Equal: the tiles have every inner element once, and a sweep's elements may come in any order.
void jacobi_2d(int T, int N, double A[N][N], double B[N][N]) {
  int t, i, j, it, jt;
  for (t = 0; t < T; t++) {
    for (it = 1; it < N - 1; it += 3)
      for (jt = 1; jt < N - 1; jt += 2)
        for (i = it; i < it + 3 && i < N - 1; i++)
          for (j = jt; j < jt + 2 && j < N - 1; j++)
            B[i][j] = 0.2 * (A[i][j] + A[i][j - 1] + A[i][j + 1] + A[i + 1][j] + A[i - 1][j]);
    for (it = 1; it < N - 1; it += 3)
      for (jt = 1; jt < N - 1; jt += 2)
        for (i = it; i < it + 3 && i < N - 1; i++)
          for (j = jt; j < jt + 2 && j < N - 1; j++)
            A[i][j] = 0.2 * (B[i][j] + B[i][j - 1] + B[i][j + 1] + B[i + 1][j] + B[i - 1][j]);
  }
}
