// sum: the sum of 2*N numbers, two of them in each turn.
// The original: one after the other is added to the sum.
void sum(int N, const double x[2 * N], double s[1]) {
  s[0] = 0.0;
  for (int i = 0; i < N; i++)
    s[0] = s[0] + x[2 * i] + x[2 * i + 1];
}
