// fir: a filter with the five taps h; x[n + 4] is the newest sample that y[n] takes.
// Wrong: the first tap takes the sample of the second one.
// Unmatched from N = 1 on: no product of the original is h[0] * x[n + 3].
void fir(int N, const double h[5], const double x[N + 4], double y[N]) {
  for (int n = 0; n < N; n++)
    y[n] = h[4] * x[n] + h[3] * x[n + 1] + h[2] * x[n + 2] + h[1] * x[n + 3] + h[0] * x[n + 3];
}
