// heat-1d: T steps of the heat equation over a row; each step has a row of its own, whose ends are given.
// i is skewed by t to s = t + i; then t and s are cut into tiles of 32 by 32 that are counted, and floord gives the last ones.
// Equal: what an element reads has a smaller t and no greater s, so it stands in this tile, before it, or in an earlier one.
void heat_1d(int T, int N, double A[T + 1][N]) {
  int t, s, t1, t2;
  for (t1 = 0; t1 <= floord(T - 1, 32); t1++)
    for (t2 = t1; t2 <= floord(T + N - 3, 32) && t2 <= floord(32*t1 + N + 29, 32); t2++)
      for (t = 32*t1; t <= 32*t1 + 31 && t <= T - 1; t++)
        for (s = 32*t2; s <= 32*t2 + 31 && s <= t + N - 2; s++)
          if (s >= t + 1)
            A[t + 1][s - t] = 0.125 * (A[t][s - t + 1] - 2.0 * A[t][s - t] + A[t][s - t - 1]) + A[t][s - t];
}
