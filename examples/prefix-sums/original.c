// prefix-sums: S[i] is the sum of A[0] to A[i].
// The original: one scalar carries the sum from element to element.
void prefix_sums(int N, const long A[N], long S[N]) {
  long sum;
  sum = 0;
  for (int i = 0; i < N; i++) {
    sum += A[i];
    S[i] = sum;
  }
}
