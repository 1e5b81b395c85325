// jacobi-2d: T double sweeps of the five-point mean over a square, in tiles of 32 by 32 that are counted.
// Wrong: the tiles of the columns end at floord(N - 2, 32) - 1, so the last ones are left out.
// Different at [1][1] where T is 1 or more and N is from 3 to 33. With T = 1 and more columns it shows at [1][32] of B and at [1][31] of A.
void jacobi_2d(int T, int N, double A[N][N], double B[N][N]) {
  int t, t1, t2, i, j;
  for (t = 0; t < T; t++) {
    for (t1 = 0; t1 <= floord(N - 2, 32); t1++)
      for (t2 = 0; t2 <= floord(N - 2, 32) - 1; t2++)
        for (i = 32*t1; i <= 32*t1 + 31 && i <= N - 2; i++)
          for (j = 32*t2; j <= 32*t2 + 31 && j <= N - 2; j++)
            if (i >= 1 && j >= 1)
              B[i][j] = 0.2 * (A[i][j] + A[i][j - 1] + A[i][j + 1] + A[i + 1][j] + A[i - 1][j]);
    for (t1 = 0; t1 <= floord(N - 2, 32); t1++)
      for (t2 = 0; t2 <= floord(N - 2, 32) - 1; t2++)
        for (i = 32*t1; i <= 32*t1 + 31 && i <= N - 2; i++)
          for (j = 32*t2; j <= 32*t2 + 31 && j <= N - 2; j++)
            if (i >= 1 && j >= 1)
              A[i][j] = 0.2 * (B[i][j] + B[i][j - 1] + B[i][j + 1] + B[i + 1][j] + B[i - 1][j]);
  }
}
