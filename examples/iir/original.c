// iir: a filter of second order, y[n] = b0 x[n] + b1 x[n-1] + b2 x[n-2] - a1 y[n-1] - a2 y[n-2], from rest.
// The original: four scalars hold the two samples before, of x and of y, and start at 0.0.
void iir(int N, double b0, double b1, double b2, double a1, double a2, double x[N], double y[N]) {
  double x1, x2, y1, y2;
  x1 = 0.0;
  x2 = 0.0;
  y1 = 0.0;
  y2 = 0.0;
  for (int n = 0; n < N; n++) {
    y[n] = b0 * x[n] + b1 * x1 + b2 * x2 - a1 * y1 - a2 * y2;
    x2 = x1;
    x1 = x[n];
    y2 = y1;
    y1 = y[n];
  }
}
