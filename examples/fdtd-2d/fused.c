// fdtd-2d: T steps of the electric fields ex and ey and the magnetic field hz in the plane; three outputs.
// One nest over the whole plane: branches split off the borders, and hz is shifted by one in both directions.
// Equal: hz[i - 1][j - 1] is assigned when its four neighbours are new and nobody needs its old value any more.
#pragma affine context NX >= 1 && NY >= 1
void fdtd_2d(int T, int NX, int NY, double ex[NX][NY], double ey[NX][NY], double hz[NX][NY], double fict[T]) {
  int t, i, j;
  for (t = 0; t < T; t++)
    for (i = 0; i < NX; i++)
      for (j = 0; j < NY; j++) {
        if (i == 0)
          ey[i][j] = fict[t];
        else
          ey[i][j] = ey[i][j] - 0.5 * (hz[i][j] - hz[i - 1][j]);
        if (j >= 1)
          ex[i][j] = ex[i][j] - 0.5 * (hz[i][j] - hz[i][j - 1]);
        if (i >= 1 && j >= 1)
          hz[i - 1][j - 1] = hz[i - 1][j - 1]
                           - 0.7 * (ex[i - 1][j] - ex[i - 1][j - 1] + ey[i][j - 1] - ey[i - 1][j - 1]);
      }
}
