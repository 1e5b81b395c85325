// seidel-1d: T sweeps of the three-point mean over a row, skewed and in tiles of 32 by 32 that are counted.
// Wrong: the row ends one short, at s <= t + N - 3, so the last inner element keeps its old value.
// Different where T is 1 or more and N is 3 or more: with T = 1 at [N-2], with more sweeps the neighbours take it over.
void seidel_1d(int T, int N, double A[N]) {
  int t, s, t1, t2;
  for (t1 = 0; t1 <= floord(T - 1, 32); t1++)
    for (t2 = t1; t2 <= floord(T + N - 3, 32) && t2 <= floord(32*t1 + N + 29, 32); t2++)
      for (t = 32*t1; t <= 32*t1 + 31 && t <= T - 1; t++)
        for (s = 32*t2; s <= 32*t2 + 31 && s <= t + N - 3; s++)
          if (s >= t + 1)
            A[s - t] = (A[s - t - 1] + A[s - t] + A[s - t + 1]) / 3.0;
}
