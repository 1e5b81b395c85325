// seidel-1d: T sweeps of the three-point mean over a row, in place; the ends stay.
// i is skewed by t to s = t + i; then t and s are cut into tiles of 32 by 32 that are counted, and floord gives the last ones.
// Equal: of two turns that meet in a cell, the later one has no smaller t and no smaller s: its tile is the same or comes later.
void seidel_1d(int T, int N, double A[N]) {
  int t, s, t1, t2;
  for (t1 = 0; t1 <= floord(T - 1, 32); t1++)
    for (t2 = t1; t2 <= floord(T + N - 3, 32) && t2 <= floord(32*t1 + N + 29, 32); t2++)
      for (t = 32*t1; t <= 32*t1 + 31 && t <= T - 1; t++)
        for (s = 32*t2; s <= 32*t2 + 31 && s <= t + N - 2; s++)
          if (s >= t + 1)
            A[s - t] = (A[s - t - 1] + A[s - t] + A[s - t + 1]) / 3.0;
}
