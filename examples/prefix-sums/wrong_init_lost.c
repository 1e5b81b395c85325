// prefix-sums: S[i] is the sum of A[0] to A[i].
// Wrong: the start of the scalar at 0 is lost, so the sums have its free first content in them.
// Different at the first element.
void prefix_sums(int N, const long A[N], long S[N]) {
  long sum;
  for (int i = 0; i < N; i++) {
    sum += A[i];
    S[i] = sum;
  }
}
