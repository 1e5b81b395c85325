// heat-1d: T steps of the heat equation over a row; each step has a row of its own, whose ends are given.
// The original: one step behind the other, each from left to right.
void heat_1d(int T, int N, double A[T + 1][N]) {
  int t, i;
  for (t = 0; t < T; t++)
    for (i = 1; i < N - 1; i++)
      A[t + 1][i] = 0.125 * (A[t][i + 1] - 2.0 * A[t][i] + A[t][i - 1]) + A[t][i];
}
