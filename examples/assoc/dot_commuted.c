// dot: a scalar product, unrolled by 4, for sizes that 4 divides.
// The products stand in another order, and their factors are exchanged.
// Equal with + and *; with + alone unmatched, since a product then keeps its order.
void dot(int N, const double a[4 * N], const double b[4 * N], double s[1]) {
  s[0] = 0.0;
  for (int i = 0; i < N; i++)
    s[0] = b[4 * i + 3] * a[4 * i + 3] + (b[4 * i + 2] * a[4 * i + 2] + (s[0] + b[4 * i] * a[4 * i] + b[4 * i + 1] * a[4 * i + 1]));
}
