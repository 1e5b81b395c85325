// seidel-1d: T sweeps of the three-point mean over a row, in place; the ends stay.
// Wrong: skewed and in tiles of 32 by 32, but the right neighbour is read one further to the right.
// Different at [1] where T is 1 and N is 3 or more.
void seidel_1d(int T, int N, double A[N]) {
  int t, s, tt, st;
  for (tt = 0; tt < T; tt += 32)
    for (st = tt; st < tt + N + 30; st += 32)
      for (t = tt; t < tt + 32 && t < T; t++)
        for (s = st; s < st + 32 && s < t + N - 1; s++)
          if (s > t)
            A[s - t] = (A[s - t - 1] + A[s - t] + A[s - t + 2]) / 3.0;
}
