// heat-1d: T steps of the heat equation over a row; each step has a row of its own, whose ends are given.
// Wrong: skewed and in tiles of 16 by 16, but a tile ends with s < st + 15, one short: what has t + i = 15, 31 and so on is left out.
// Different where T is 1 and N is 17 or more: [1][15] keeps its old value. With N = 5 it takes 13 steps.
void heat_1d(int T, int N, double A[T + 1][N]) {
  int t, s, tt, st;
  for (tt = 0; tt < T; tt += 16)
    for (st = 0; st < T + N; st += 16)
      for (t = tt; t < tt + 16 && t < T; t++)
        for (s = st; s < st + 15 && s < t + N - 1; s++)
          if (s > t)
            A[t + 1][s - t] = 0.125 * (A[t][s - t + 1] - 2.0 * A[t][s - t] + A[t][s - t - 1]) + A[t][s - t];
}
