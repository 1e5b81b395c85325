// fir: a filter with the five taps h; x[n + 4] is the newest sample that y[n] takes.
// The loop over the samples is unrolled by 2 and jammed; the remainder loop takes the last sample of an odd N.
// Equal: the taps of each sample keep their order.
void fir(int N, const double h[5], const double x[N + 4], double y[N]) {
  int n, k, rest;
  for (n = 0; n + 1 < N; n += 2) {
    y[n] = 0.0;
    y[n + 1] = 0.0;
    for (k = 0; k < 5; k++) {
      y[n] += h[k] * x[n - k + 4];
      y[n + 1] += h[k] * x[n - k + 5];
    }
  }
  for (n = 0; n < N; n += 2)
    for (rest = n; n + 1 >= N && rest < N; rest++) {
      y[rest] = 0.0;
      for (k = 0; k < 5; k++)
        y[rest] += h[k] * x[rest - k + 4];
    }
}
