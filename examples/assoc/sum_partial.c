// sum: the sum of 2*N numbers, two of them in each turn.
// The two are added first, and their sum is then added to what there is.
// Equal with +: both sums have the operands s[0], x[2 * i] and x[2 * i + 1].
void sum(int N, const double x[2 * N], double s[1]) {
  s[0] = 0.0;
  for (int i = 0; i < N; i++)
    s[0] += x[2 * i] + x[2 * i + 1];
}
