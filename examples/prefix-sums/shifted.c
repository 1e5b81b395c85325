// prefix-sums: S[i] is the sum of A[0] to A[i].
// The loop counts from 1 to N, and both subscripts take the 1 off.
// Equal: each turn does what the turn before it did.
void prefix_sums(int N, const long A[N], long S[N]) {
  long sum;
  sum = 0;
  for (int i = 1; i <= N; i = i + 1) {
    sum += A[i - 1];
    S[i - 1] = sum;
  }
}
