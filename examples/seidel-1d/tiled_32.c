// seidel-1d: T sweeps of the three-point mean over a row, in place; the ends stay.
// i is skewed by t to s = t + i; then t and s are cut into tiles of 32 by 32, and an if cuts each tile to the row.
// Equal: of two turns that meet in a cell, the later one has no smaller t and no smaller s: its tile is the same or comes later.
void seidel_1d(int T, int N, double A[N]) {
  int t, s, tt, st;
  for (tt = 0; tt < T; tt += 32)
    for (st = tt; st < tt + N + 30; st += 32)
      for (t = tt; t < tt + 32 && t < T; t++)
        for (s = st; s < st + 32 && s < t + N - 1; s++)
          if (s > t)
            A[s - t] = (A[s - t - 1] + A[s - t] + A[s - t + 1]) / 3.0;
}
