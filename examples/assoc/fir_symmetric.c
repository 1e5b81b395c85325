// fir: a filter with the five taps h; x[n + 4] is the newest sample that y[n] takes.
// The middle tap first, then the outer and the inner pair.
// Equal with +.
void fir(int N, const double h[5], const double x[N + 4], double y[N]) {
  for (int n = 0; n < N; n++)
    y[n] = h[2] * x[n + 2] + ((h[0] * x[n + 4] + h[4] * x[n]) + (h[1] * x[n + 3] + h[3] * x[n + 1]));
}
