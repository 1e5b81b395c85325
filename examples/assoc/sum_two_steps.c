// sum: the sum of 2*N numbers, two of them in each turn.
// The two are added by assignments of their own.
// Unmatched: a chain ends at an assignment, so two sums of two operands stand against one of three.
void sum(int N, const double x[2 * N], double s[1]) {
  s[0] = 0.0;
  for (int i = 0; i < N; i++) {
    s[0] = s[0] + x[2 * i];
    s[0] = s[0] + x[2 * i + 1];
  }
}
