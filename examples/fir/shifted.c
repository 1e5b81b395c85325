// fir: a filter with the five taps h; x[n + 4] is the newest sample that y[n] takes.
// n is shifted by 4 to count the samples of x, and the sum is written as one expression instead of in y step by step.
// Equal: both subscripts take the 4 off, and the sum has its taps in the same order.
void fir(int N, const double h[5], const double x[N + 4], double y[N]) {
  for (int n = 4; n < N + 4; n++)
    y[n - 4] = 0.0 + h[0] * x[n] + h[1] * x[n - 1] + h[2] * x[n - 2] + h[3] * x[n - 3] + h[4] * x[n - 4];
}
