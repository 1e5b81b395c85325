// prefix-sums: S[i] is the sum of A[0] to A[i], with the loop taken backwards.
// Wrong: the scalar is carried from element to element, so the sums grow from the other end.
// Different at the first element where N is 2 or more.
void prefix_sums(int N, const long A[N], long S[N]) {
  long sum;
  sum = 0;
  for (int i = N - 1; i >= 0; i--) {
    sum += A[i];
    S[i] = sum;
  }
}
