// prefix-sums: S[i] is the sum of A[0] to A[i].
// The scalar is removed: the sum before is read from S. The first element, which has none, is peeled.
// Equal where there is a first element, as the context says.
#pragma affine context N >= 1
void prefix_sums(int N, const long A[N], long S[N]) {
  S[0] = 0 + A[0];
  for (int i = 1; i < N; i++)
    S[i] = S[i - 1] + A[i];
}
