// jacobi-1d: T double sweeps of the three-point mean over a row; the ends stay.
// A local row C takes the place of B, of which only the ends are read; the output line leaves B out of the comparison.
// A is equal, since C is what B was. Without the line B would be different, since it isn't assigned here.
#pragma affine context N >= 1
#pragma affine output A
void jacobi_1d(int T, int N, double A[N], double B[N]) {
  double C[N];
  int t, i;
  C[0] = B[0];
  C[N - 1] = B[N - 1];
  for (t = 0; t < T; t++) {
    for (i = 1; i < N - 1; i++)
      C[i] = 0.33333 * (A[i - 1] + A[i] + A[i + 1]);
    for (i = 1; i < N - 1; i++)
      A[i] = 0.33333 * (C[i - 1] + C[i] + C[i + 1]);
  }
}
