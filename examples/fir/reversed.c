// fir: a filter with the five taps h; x[n + 4] is the newest sample that y[n] takes.
// The loop over the samples runs backwards.
// Equal: no sample of the output reads another one; the taps keep their order.
void fir(int N, const double h[5], const double x[N + 4], double y[N]) {
  int n, k;
  for (n = N - 1; n >= 0; n--) {
    y[n] = 0.0;
    for (k = 0; k < 5; k++)
      y[n] += h[k] * x[n - k + 4];
  }
}
