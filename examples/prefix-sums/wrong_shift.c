// prefix-sums: S[i] is the sum of A[0] to A[i], with the loop counting from 1 to N.
// Wrong: S is written at i - 1, but A is still read at i, where the shift was forgotten.
// Different at the first element; the last turn also reads past the array.
void prefix_sums(int N, const long A[N], long S[N]) {
  long sum;
  sum = 0;
  for (int i = 1; i <= N; i++) {
    sum += A[i];
    S[i - 1] = sum;
  }
}
