// weigh: a weighted sum of three numbers.
// The weight before the sum, and the sum from behind.
// Equal with + and *; with one of them alone unmatched.
void weigh(int N, const double a[N], const double b[N], const double c[N], const double w[N], double y[N]) {
  for (int i = 0; i < N; i++)
    y[i] = w[i] * (c[i] + (b[i] + a[i]));
}
