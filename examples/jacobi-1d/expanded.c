// jacobi-1d: T double sweeps of the three-point mean over a row; the ends stay.
// Each row gets a dimension for the time (array expansion), and the sweeps then run from the right to the left.
// Equal: every read finds the row of its own time; the last rows are copied out.
#pragma affine context T >= 0
void jacobi_1d(int T, int N, double A[N], double B[N]) {
  double P[T + 1][N], Q[T + 1][N];
  int t, i;
  for (i = 0; i < N; i++) {
    P[0][i] = A[i];
    Q[0][i] = B[i];
  }
  for (t = 0; t < T; t++) {
    for (i = N - 1; i >= 0; i--)
      if (i >= 1 && i < N - 1)
        Q[t + 1][i] = 0.33333 * (P[t][i - 1] + P[t][i] + P[t][i + 1]);
      else
        Q[t + 1][i] = Q[t][i];
    for (i = N - 1; i >= 0; i--)
      if (i >= 1 && i < N - 1)
        P[t + 1][i] = 0.33333 * (Q[t + 1][i - 1] + Q[t + 1][i] + Q[t + 1][i + 1]);
      else
        P[t + 1][i] = P[t][i];
  }
  for (i = 0; i < N; i++) {
    A[i] = P[T][i];
    B[i] = Q[T][i];
  }
}
