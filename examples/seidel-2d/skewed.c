// seidel-2d: T sweeps of the nine-point mean over a square, in place; the border stays.
// i is skewed by t, and j by t and the skewed i, so that all three loops could be tiled.
// Equal: skewing alone keeps the order; the subscripts take off what was added.
void seidel_2d(int T, int N, double A[N][N]) {
  int t, i, j;
  for (t = 0; t < T; t++)
    for (i = t + 1; i < t + N - 1; i++)
      for (j = t + i + 1; j < t + i + N - 1; j++)
        A[i - t][j - t - i] = (A[i - t - 1][j - t - i - 1] + A[i - t - 1][j - t - i] + A[i - t - 1][j - t - i + 1]
                               + A[i - t][j - t - i - 1] + A[i - t][j - t - i] + A[i - t][j - t - i + 1]
                               + A[i - t + 1][j - t - i - 1] + A[i - t + 1][j - t - i] + A[i - t + 1][j - t - i + 1])
                              / 9.0;
}
