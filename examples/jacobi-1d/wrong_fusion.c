// jacobi-1d: T double sweeps of the three-point mean over a row, both sweeps fused without a shift.
// Wrong: A[i] reads B[i + 1] before the same turn of t assigns it, and B[i + 1] reads the new A[i].
// A is different at [1] and B at [2] where N is 4 or more.
void jacobi_1d(int T, int N, double A[N], double B[N]) {
  int t, i;
  for (t = 0; t < T; t++)
    for (i = 1; i < N - 1; i++) {
      B[i] = 0.33333 * (A[i - 1] + A[i] + A[i + 1]);
      A[i] = 0.33333 * (B[i - 1] + B[i] + B[i + 1]);
    }
}
