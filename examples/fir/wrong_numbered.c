// fir: a filter with the five taps h, with the loop over the samples unrolled by 4, in blocks that are counted.
// Wrong: the remainder starts at 4 ceild(N, 4), so the last samples are never assigned.
// Different at the first element behind the last full block; where 4 divides N nothing shows.
void fir(int N, const double h[5], const double x[N + 4], double y[N]) {
  int n, k, b;
  for (b = 0; b <= floord(N, 4) - 1; b++) {
    y[4*b] = 0.0;
    y[4*b + 1] = 0.0;
    y[4*b + 2] = 0.0;
    y[4*b + 3] = 0.0;
    for (k = 0; k < 5; k++) {
      y[4*b] += h[k] * x[4*b - k + 4];
      y[4*b + 1] += h[k] * x[4*b - k + 5];
      y[4*b + 2] += h[k] * x[4*b - k + 6];
      y[4*b + 3] += h[k] * x[4*b - k + 7];
    }
  }
  for (n = 4*ceild(N, 4); n < N; n++) {
    y[n] = 0.0;
    for (k = 0; k < 5; k++)
      y[n] += h[k] * x[n - k + 4];
  }
}
