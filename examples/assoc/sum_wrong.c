// sum: the sum of 2*N numbers, two of them in each turn.
// Wrong: the first of the two is added twice.
// Unmatched from N = 1 on: no order of the operands has x[2 * i + 1].
void sum(int N, const double x[2 * N], double s[1]) {
  s[0] = 0.0;
  for (int i = 0; i < N; i++)
    s[0] = x[2 * i] + (s[0] + x[2 * i]);
}
