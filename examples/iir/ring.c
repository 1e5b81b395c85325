// iir: a filter of second order, y[n] = b0 x[n] + b1 x[n-1] + b2 x[n-2] - a1 y[n-1] - a2 y[n-2], from rest.
// A ring of three cells holds the samples of y: the sample n stands in the cell that n leaves as remainder of 3.
// Equal: a cell is written again three samples later, when its sample has been read for the last time.
void iir(int N, double b0, double b1, double b2, double a1, double a2, double x[N], double y[N]) {
  double x1, x2, r[3];
  x1 = 0.0;
  x2 = 0.0;
  r[1] = 0.0;
  r[2] = 0.0;
  for (int n = 0; n < N; n++) {
    r[n - 3*floord(n, 3)] = b0 * x[n] + b1 * x1 + b2 * x2 - a1 * r[n - 1 - 3*floord(n - 1, 3)] - a2 * r[n - 2 - 3*floord(n - 2, 3)];
    x2 = x1;
    x1 = x[n];
    y[n] = r[n - 3*floord(n, 3)];
  }
}
