// strided: of the elements from M on C takes every third one from B, those whose index is a multiple of 3.
// The loop has a step of 3 and starts at the least multiple of 3 that is not below M.
// Equal: it runs through the same elements.
void strided(int M, int N, double B[N], double C[N]) {
  int i;
  for (i = 3*ceild(M, 3); i < N; i += 3)
    C[i] = g(B[i]);
}
