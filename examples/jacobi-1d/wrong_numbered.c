// jacobi-1d: T double sweeps of the three-point mean over a row, skewed and in tiles of 16 by 16 that are counted.
// Wrong: a tile ends one short, at 16 t2 + 14: what has 2 t + i = 15, 31 and so on is left out, and so is what it gives to A.
// Different in A where T is 1 and N is 16 or more: [14] keeps its old value. In B it shows at [15], from N = 17 on.
void jacobi_1d(int T, int N, double A[N], double B[N]) {
  int t1, t2, t, s;
  for (t1 = 0; t1 <= floord(T - 1, 16); t1++)
    for (t2 = 2*t1; t2 <= floord(2*T + N - 3, 16) && t2 <= floord(32*t1 + N + 29, 16); t2++)
      for (t = 16*t1; t <= 16*t1 + 15 && t <= T - 1; t++)
        for (s = 16*t2; s <= 16*t2 + 14 && s <= 2*t + N - 1; s++) {
          if (s >= 2*t + 1 && s <= 2*t + N - 2)
            B[s - 2*t] = 0.33333 * (A[s - 2*t - 1] + A[s - 2*t] + A[s - 2*t + 1]);
          if (s >= 2*t + 2)
            A[s - 2*t - 1] = 0.33333 * (B[s - 2*t - 2] + B[s - 2*t - 1] + B[s - 2*t]);
        }
}
