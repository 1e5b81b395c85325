// heat-3d: T double steps of the heat equation in a cube, the loop over i of the first step shifted to start at 2.
// Wrong: B[i - 1] is written, but A is still read around i, where the shift was forgotten.
// Different at the first inner element of B, and of A, which reads it; the last turn also reads past the array.
void heat_3d(int T, int N, double A[N][N][N], double B[N][N][N]) {
  int t, i, j, k;
  for (t = 0; t < T; t++) {
    for (i = 2; i < N; i++)
      for (j = 1; j < N - 1; j++)
        for (k = 1; k < N - 1; k++)
          B[i - 1][j][k] = 0.125 * (A[i + 1][j][k] - 2.0 * A[i][j][k] + A[i - 1][j][k])
                         + 0.125 * (A[i][j + 1][k] - 2.0 * A[i][j][k] + A[i][j - 1][k])
                         + 0.125 * (A[i][j][k + 1] - 2.0 * A[i][j][k] + A[i][j][k - 1]) + A[i][j][k];
    for (i = 1; i < N - 1; i++)
      for (j = 1; j < N - 1; j++)
        for (k = 1; k < N - 1; k++)
          A[i][j][k] = 0.125 * (B[i + 1][j][k] - 2.0 * B[i][j][k] + B[i - 1][j][k])
                     + 0.125 * (B[i][j + 1][k] - 2.0 * B[i][j][k] + B[i][j - 1][k])
                     + 0.125 * (B[i][j][k + 1] - 2.0 * B[i][j][k] + B[i][j][k - 1]) + B[i][j][k];
  }
}
