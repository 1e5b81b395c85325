// fir: a filter with the five taps h, with the loop over the samples unrolled by 4.
// Wrong: there is no remainder loop, so the last samples are never assigned.
// Different at the first element after the last full block; where 4 divides N nothing shows.
void fir(int N, const double h[5], const double x[N + 4], double y[N]) {
  int n, k;
  for (n = 0; n + 3 < N; n += 4) {
    y[n] = 0.0;
    y[n + 1] = 0.0;
    y[n + 2] = 0.0;
    y[n + 3] = 0.0;
    for (k = 0; k < 5; k++) {
      y[n] += h[k] * x[n - k + 4];
      y[n + 1] += h[k] * x[n - k + 5];
      y[n + 2] += h[k] * x[n - k + 6];
      y[n + 3] += h[k] * x[n - k + 7];
    }
  }
}
