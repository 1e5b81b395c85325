// fdtd-2d: T steps of the electric fields ex and ey and the magnetic field hz in the plane; three outputs.
// The original: in each step the source at the border, then ey, ex and hz in nests of their own.
#pragma affine context NX >= 1 && NY >= 1
void fdtd_2d(int T, int NX, int NY, double ex[NX][NY], double ey[NX][NY], double hz[NX][NY], double fict[T]) {
  int t, i, j;
  for (t = 0; t < T; t++) {
    for (j = 0; j < NY; j++)
      ey[0][j] = fict[t];
    for (i = 1; i < NX; i++)
      for (j = 0; j < NY; j++)
        ey[i][j] = ey[i][j] - 0.5 * (hz[i][j] - hz[i - 1][j]);
    for (i = 0; i < NX; i++)
      for (j = 1; j < NY; j++)
        ex[i][j] = ex[i][j] - 0.5 * (hz[i][j] - hz[i][j - 1]);
    for (i = 0; i < NX - 1; i++)
      for (j = 0; j < NY - 1; j++)
        hz[i][j] = hz[i][j] - 0.7 * (ex[i][j + 1] - ex[i][j] + ey[i + 1][j] - ey[i][j]);
  }
}
