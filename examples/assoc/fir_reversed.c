// fir: a filter with the five taps h; x[n + 4] is the newest sample that y[n] takes.
// The oldest sample first.
// Equal with +: the reverse order is the last of 120.
void fir(int N, const double h[5], const double x[N + 4], double y[N]) {
  for (int n = 0; n < N; n++)
    y[n] = h[4] * x[n] + h[3] * x[n + 1] + h[2] * x[n + 2] + h[1] * x[n + 3] + h[0] * x[n + 4];
}
