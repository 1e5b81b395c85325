// iir: a filter of second order, y[n] = b0 x[n] + b1 x[n-1] + b2 x[n-2] - a1 y[n-1] - a2 y[n-2], from rest.
// Each delay line of two scalars becomes an array whose first two elements are the rest at 0.0.
// Equal: element n of an array is what the older scalar holds in turn n, element n + 1 the newer one.
void iir(int N, double b0, double b1, double b2, double a1, double a2, double x[N], double y[N]) {
  double X[N + 2], Y[N + 2];
  X[0] = 0.0;
  X[1] = 0.0;
  Y[0] = 0.0;
  Y[1] = 0.0;
  for (int n = 0; n < N; n++) {
    X[n + 2] = x[n];
    Y[n + 2] = b0 * X[n + 2] + b1 * X[n + 1] + b2 * X[n] - a1 * Y[n + 1] - a2 * Y[n];
    y[n] = Y[n + 2];
  }
}
