// fdtd-2d: T steps of the electric fields ex and ey and the magnetic field hz in the plane, all in one nest.
// Wrong: hz isn't shifted, so it reads ex and ey one further before this step assigns them, and is new too early.
// All three are different: hz at [0][0], ex at [0][1] and ey at [1][0], which read it.
#pragma affine context NX >= 1 && NY >= 1
void fdtd_2d(int T, int NX, int NY, double ex[NX][NY], double ey[NX][NY], double hz[NX][NY], double fict[T]) {
  int t, i, j;
  for (t = 0; t < T; t++)
    for (i = 0; i < NX; i++)
      for (j = 0; j < NY; j++) {
        if (i == 0)
          ey[i][j] = fict[t];
        else
          ey[i][j] = ey[i][j] - 0.5 * (hz[i][j] - hz[i - 1][j]);
        if (j >= 1)
          ex[i][j] = ex[i][j] - 0.5 * (hz[i][j] - hz[i][j - 1]);
        if (i < NX - 1 && j < NY - 1)
          hz[i][j] = hz[i][j] - 0.7 * (ex[i][j + 1] - ex[i][j] + ey[i + 1][j] - ey[i][j]);
      }
}
