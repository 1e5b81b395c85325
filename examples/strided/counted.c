// strided: of the elements from M on C takes every third one from B, those whose index is a multiple of 3.
// The loop counts the multiples, as a code generator prints a strided domain: from ceild(M, 3) to floord(N - 1, 3).
// Equal: 3 q is at least M exactly from q = ceild(M, 3) on, and at most N - 1 exactly up to floord(N - 1, 3).
void strided(int M, int N, double B[N], double C[N]) {
  int q;
  for (q = ceild(M, 3); q <= floord(N - 1, 3); q++)
    C[3*q] = g(B[3*q]);
}
