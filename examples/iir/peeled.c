// iir: a filter of second order, y[n] = b0 x[n] + b1 x[n-1] + b2 x[n-2] - a1 y[n-1] - a2 y[n-2], from rest.
// The scalars are removed: x and y themselves are read. The two samples that need the rest at 0.0 are peeled.
// Equal where there are two samples, as the context says.
#pragma affine context N >= 2
void iir(int N, double b0, double b1, double b2, double a1, double a2, double x[N], double y[N]) {
  y[0] = b0 * x[0] + b1 * 0.0 + b2 * 0.0 - a1 * 0.0 - a2 * 0.0;
  y[1] = b0 * x[1] + b1 * x[0] + b2 * 0.0 - a1 * y[0] - a2 * 0.0;
  for (int n = 2; n < N; n++)
    y[n] = b0 * x[n] + b1 * x[n - 1] + b2 * x[n - 2] - a1 * y[n - 1] - a2 * y[n - 2];
}
