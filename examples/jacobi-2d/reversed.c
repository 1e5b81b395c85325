// jacobi-2d: T double sweeps of the five-point mean over a square; the border stays.
// The first sweep runs backwards in both directions, the second one column by column from the right.
// Equal: a sweep reads one array and writes the other, so its elements may come in any order.
void jacobi_2d(int T, int N, double A[N][N], double B[N][N]) {
  int t, i, j;
  for (t = 0; t < T; t++) {
    for (i = N - 2; i >= 1; i--)
      for (j = N - 2; j >= 1; j--)
        B[i][j] = 0.2 * (A[i][j] + A[i][j - 1] + A[i][j + 1] + A[i + 1][j] + A[i - 1][j]);
    for (j = N - 2; j > 0; j -= 1)
      for (i = 1; i < N - 1; i += 1)
        A[i][j] = 0.2 * (B[i][j] + B[i][j - 1] + B[i][j + 1] + B[i + 1][j] + B[i - 1][j]);
  }
}
