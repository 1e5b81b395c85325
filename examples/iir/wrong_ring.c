// iir: a filter of second order, with a ring of three cells for the samples of y.
// Wrong: the last read takes the cell of n - 3, one sample too old.
// Different at [0] wherever N is 1 or more: that cell has no value yet.
void iir(int N, double b0, double b1, double b2, double a1, double a2, double x[N], double y[N]) {
  double x1, x2, r[3];
  x1 = 0.0;
  x2 = 0.0;
  r[1] = 0.0;
  r[2] = 0.0;
  for (int n = 0; n < N; n++) {
    r[n - 3*floord(n, 3)] = b0 * x[n] + b1 * x1 + b2 * x2 - a1 * r[n - 1 - 3*floord(n - 1, 3)] - a2 * r[n - 3 - 3*floord(n - 3, 3)];
    x2 = x1;
    x1 = x[n];
    y[n] = r[n - 3*floord(n, 3)];
  }
}
