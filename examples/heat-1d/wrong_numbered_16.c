// heat-1d: T steps of the heat equation over a row; each step has a row of its own, whose ends are given.
// Wrong: skewed and in tiles of 16 by 16 that are counted, but the second bound of t2 is rounded before N - 2 is added to t: t1 + floord(N - 2, 16).
// Different where a later turn of a tile goes on into one more tile: with T = 2 and N = 17 at [2][15], where t + i = 16.
void heat_1d(int T, int N, double A[T + 1][N]) {
  int t, s, t1, t2;
  for (t1 = 0; t1 <= floord(T - 1, 16); t1++)
    for (t2 = t1; t2 <= floord(T + N - 3, 16) && t2 <= t1 + floord(N - 2, 16); t2++)
      for (t = 16*t1; t <= 16*t1 + 15 && t <= T - 1; t++)
        for (s = 16*t2; s <= 16*t2 + 15 && s <= t + N - 2; s++)
          if (s >= t + 1)
            A[t + 1][s - t] = 0.125 * (A[t][s - t + 1] - 2.0 * A[t][s - t] + A[t][s - t - 1]) + A[t][s - t];
}
