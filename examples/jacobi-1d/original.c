// jacobi-1d: T double sweeps of the three-point mean over a row; the ends stay.
// The original: from A into B, then from B back into A; both are outputs.
void jacobi_1d(int T, int N, double A[N], double B[N]) {
  int t, i;
  for (t = 0; t < T; t++) {
    for (i = 1; i < N - 1; i++)
      B[i] = 0.33333 * (A[i - 1] + A[i] + A[i + 1]);
    for (i = 1; i < N - 1; i++)
      A[i] = 0.33333 * (B[i - 1] + B[i] + B[i + 1]);
  }
}
