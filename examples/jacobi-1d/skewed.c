// jacobi-1d: T double sweeps of the three-point mean over a row; the ends stay.
// The space loops are skewed by 2 a turn of t: i runs from 2 t + 1 on, and the second sweep is one further.
// Equal: skewing alone keeps the order; the subscripts take off what was added.
void jacobi_1d(int T, int N, double A[N], double B[N]) {
  int t, i;
  for (t = 0; t < T; t++) {
    for (i = 2 * t + 1; i < 2 * t + N - 1; i++)
      B[i - 2 * t] = 0.33333 * (A[i - 2 * t - 1] + A[i - 2 * t] + A[i - 2 * t + 1]);
    for (i = 2 * t + 2; i < 2 * t + N; i++)
      A[i - 2 * t - 1] = 0.33333 * (B[i - 2 * t - 2] + B[i - 2 * t - 1] + B[i - 2 * t]);
  }
}
