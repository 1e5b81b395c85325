// strided: of the elements from M on C takes every third one from B, those whose index is a multiple of 3.
// The original: a loop over all elements with a test of the divisor.
void strided(int M, int N, double B[N], double C[N]) {
  for (int i = M; i < N; i++)
    if (i % 3 == 0)
      C[i] = g(B[i]);
}
