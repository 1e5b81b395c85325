// prefix-sums: S[i] is the sum of A[0] to A[i].
// The scalar becomes an array with one element per turn and one for the start; the copy to S has its own loop.
// Equal: element i + 1 is what the scalar holds after turn i.
void prefix_sums(int N, const long A[N], long S[N]) {
  long sum[N + 1];
  sum[0] = 0;
  for (int i = 0; i < N; i++)
    sum[i + 1] = sum[i] + A[i];
  for (int i = 0; i < N; i++)
    S[i] = sum[i + 1];
}
