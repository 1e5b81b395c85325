// prefix-sums: S[i] is the sum of A[0] to A[i].
// The loop is unrolled by 3; the last block, where it isn't full, runs in a remainder loop.
// Equal: the elements come in the same order.
void prefix_sums(int N, const long A[N], long S[N]) {
  long sum;
  sum = 0;
  for (int i = 0; i + 3 <= N; i += 3) {
    S[i] = sum + A[i];
    S[i + 1] = sum + A[i] + A[i + 1];
    S[i + 2] = sum + A[i] + A[i + 1] + A[i + 2];
    sum = S[i + 2];
  }
  for (int block = 0; block < N; block += 3)
    for (int i = block; block + 3 > N && i < N; i++) {
      sum += A[i];
      S[i] = sum;
    }
}
