// heat-1d: T steps of the heat equation over a row; each step has a row of its own, whose ends are given.
// Wrong: skewed and in tiles of 32 by 32, but the right neighbour is read one further to the right.
// Different at [1][1] where T is 1 and N is 3 or more.
void heat_1d(int T, int N, double A[T + 1][N]) {
  int t, s, tt, st;
  for (tt = 0; tt < T; tt += 32)
    for (st = 0; st < T + N; st += 32)
      for (t = tt; t < tt + 32 && t < T; t++)
        for (s = st; s < st + 32 && s < t + N - 1; s++)
          if (s > t)
            A[t + 1][s - t] = 0.125 * (A[t][s - t + 2] - 2.0 * A[t][s - t] + A[t][s - t - 1]) + A[t][s - t];
}
