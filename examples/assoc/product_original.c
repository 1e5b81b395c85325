// product: the products of four numbers.
// The original: one factor after the other.
void product(int N, const double a[N], const double b[N], const double c[N], const double d[N], double p[N]) {
  for (int i = 0; i < N; i++)
    p[i] = a[i] * b[i] * c[i] * d[i];
}
