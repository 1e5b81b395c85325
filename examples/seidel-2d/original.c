// seidel-2d: T sweeps of the nine-point mean over a square, in place; the border stays.
// The original: row by row, each element reads four new and four old neighbours.
void seidel_2d(int T, int N, double A[N][N]) {
  int t, i, j;
  for (t = 0; t < T; t++)
    for (i = 1; i < N - 1; i++)
      for (j = 1; j < N - 1; j++)
        A[i][j] = (A[i - 1][j - 1] + A[i - 1][j] + A[i - 1][j + 1] + A[i][j - 1] + A[i][j] + A[i][j + 1]
                   + A[i + 1][j - 1] + A[i + 1][j] + A[i + 1][j + 1]) / 9.0;
}
