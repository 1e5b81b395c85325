// heat-1d: T steps of the heat equation over a row; each step has a row of its own, whose ends are given.
// i is skewed by t to s = t + i; then t and s are cut into tiles of 16 by 16 that are counted, and floord gives the last ones.
// Equal: what an element reads has a smaller t and no greater s, so it stands in this tile, before it, or in an earlier one.
void heat_1d(int T, int N, double A[T + 1][N]) {
  int t, s, t1, t2;
  for (t1 = 0; t1 <= floord(T - 1, 16); t1++)
    for (t2 = t1; t2 <= floord(T + N - 3, 16) && t2 <= floord(16*t1 + N + 13, 16); t2++)
      for (t = 16*t1; t <= 16*t1 + 15 && t <= T - 1; t++)
        for (s = 16*t2; s <= 16*t2 + 15 && s <= t + N - 2; s++)
          if (s >= t + 1)
            A[t + 1][s - t] = 0.125 * (A[t][s - t + 1] - 2.0 * A[t][s - t] + A[t][s - t - 1]) + A[t][s - t];
}
