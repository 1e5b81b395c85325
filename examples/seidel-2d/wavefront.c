// seidel-2d: T sweeps of the nine-point mean over a square, in place; the border stays.
// j is skewed by 2 i to w = j + 2 i, w goes outside, and i runs backwards; an if cuts each front to the square.
// Equal: all new neighbours that an element reads have a smaller w, all old ones a greater w.
void seidel_2d(int T, int N, double A[N][N]) {
  int t, w, i;
  for (t = 0; t < T; t++)
    for (w = 3; w <= 3 * N - 6; w++)
      for (i = N - 2; i >= 1; i--)
        if (w - 2 * i >= 1 && w - 2 * i < N - 1)
          A[i][w - 2 * i] = (A[i - 1][w - 2 * i - 1] + A[i - 1][w - 2 * i] + A[i - 1][w - 2 * i + 1]
                             + A[i][w - 2 * i - 1] + A[i][w - 2 * i] + A[i][w - 2 * i + 1]
                             + A[i + 1][w - 2 * i - 1] + A[i + 1][w - 2 * i] + A[i + 1][w - 2 * i + 1]) / 9.0;
}
