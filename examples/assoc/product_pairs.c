// product: the products of four numbers.
// The outer and the inner pair first.
// Equal with *.
void product(int N, const double a[N], const double b[N], const double c[N], const double d[N], double p[N]) {
  for (int i = 0; i < N; i++)
    p[i] = (a[i] * d[i]) * (c[i] * b[i]);
}
