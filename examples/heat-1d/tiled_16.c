// heat-1d: T steps of the heat equation over a row; each step has a row of its own, whose ends are given.
// i is skewed by t to s = t + i; then t and s are cut into tiles of 16 by 16, and an if cuts each tile to the row.
// Equal: what an element reads has a smaller t and no greater s, so it stands in this tile, before it, or in an earlier one.
void heat_1d(int T, int N, double A[T + 1][N]) {
  int t, s, tt, st;
  for (tt = 0; tt < T; tt += 16)
    for (st = 0; st < T + N; st += 16)
      for (t = tt; t < tt + 16 && t < T; t++)
        for (s = st; s < st + 16 && s < t + N - 1; s++)
          if (s > t)
            A[t + 1][s - t] = 0.125 * (A[t][s - t + 1] - 2.0 * A[t][s - t] + A[t][s - t - 1]) + A[t][s - t];
}
