// iir: a filter of second order, with arrays as delay lines, from the last sample to the first.
// Wrong: y[n] reads the two outputs before it, and none of them is there yet.
// Different at [1] where N is 2 or more; y[0] reads the rest at 0.0 alone.
void iir(int N, double b0, double b1, double b2, double a1, double a2, double x[N], double y[N]) {
  double X[N + 2], Y[N + 2];
  X[0] = 0.0;
  X[1] = 0.0;
  Y[0] = 0.0;
  Y[1] = 0.0;
  for (int n = 0; n < N; n++)
    X[n + 2] = x[n];
  for (int n = N - 1; n >= 0; n--) {
    Y[n + 2] = b0 * X[n + 2] + b1 * X[n + 1] + b2 * X[n] - a1 * Y[n + 1] - a2 * Y[n];
    y[n] = Y[n + 2];
  }
}
