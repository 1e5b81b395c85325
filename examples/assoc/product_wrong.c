// product: the products of four numbers.
// Wrong: a factor twice, and one is lost.
// Unmatched from N = 1 on.
void product(int N, const double a[N], const double b[N], const double c[N], const double d[N], double p[N]) {
  for (int i = 0; i < N; i++)
    p[i] = (a[i] * d[i]) * (c[i] * a[i]);
}
