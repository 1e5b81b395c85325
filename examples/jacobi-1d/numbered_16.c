// jacobi-1d: T double sweeps of the three-point mean over a row; the ends stay.
// i is skewed to s = 2 t + i, the second sweep is one further, and t and s are cut into tiles of 16 by 16 that are counted.
// Equal: what an element reads has a smaller t and no greater s, or stands before it in the body; its tile is the same or comes before.
void jacobi_1d(int T, int N, double A[N], double B[N]) {
  int t1, t2, t, s;
  for (t1 = 0; t1 <= floord(T - 1, 16); t1++)
    for (t2 = 0; t2 <= floord(2*T + N - 3, 16); t2++)
      for (t = 16*t1; t <= 16*t1 + 15 && t <= T - 1; t++)
        for (s = 16*t2; s <= 16*t2 + 15 && s <= 2*t + N - 1; s++) {
          if (s >= 2*t + 1 && s <= 2*t + N - 2)
            B[s - 2*t] = 0.33333 * (A[s - 2*t - 1] + A[s - 2*t] + A[s - 2*t + 1]);
          if (s >= 2*t + 2)
            A[s - 2*t - 1] = 0.33333 * (B[s - 2*t - 2] + B[s - 2*t - 1] + B[s - 2*t]);
        }
}
