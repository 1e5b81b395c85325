// jacobi-1d: T double sweeps of the three-point mean over a row; the ends stay.
// The second sweep is shifted by one and fused with the first; what sticks out at both ends is peeled.
// Equal where the row has an inner element, as the context says: A[i - 1] is assigned once B[i] is there.
#pragma affine context N >= 3
void jacobi_1d(int T, int N, double A[N], double B[N]) {
  int t, i;
  for (t = 0; t < T; t++) {
    B[1] = 0.33333 * (A[0] + A[1] + A[2]);
    for (i = 2; i < N - 1; i++) {
      B[i] = 0.33333 * (A[i - 1] + A[i] + A[i + 1]);
      A[i - 1] = 0.33333 * (B[i - 2] + B[i - 1] + B[i]);
    }
    A[N - 2] = 0.33333 * (B[N - 3] + B[N - 2] + B[N - 1]);
  }
}
