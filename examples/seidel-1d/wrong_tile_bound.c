// seidel-1d: T sweeps of the three-point mean over a row, in place; the ends stay.
// Wrong: skewed and in tiles of 16 by 16, but a tile ends with s < st + 15, one short: what has t + i = 15, 31 and so on is left out.
// Different where T is 1 and N is 17 or more: [15] keeps its old value. With N = 5 it takes 13 sweeps.
void seidel_1d(int T, int N, double A[N]) {
  int t, s, tt, st;
  for (tt = 0; tt < T; tt += 16)
    for (st = tt; st < tt + N + 14; st += 16)
      for (t = tt; t < tt + 16 && t < T; t++)
        for (s = st; s < st + 15 && s < t + N - 1; s++)
          if (s > t)
            A[s - t] = (A[s - t - 1] + A[s - t] + A[s - t + 1]) / 3.0;
}
