// interleave: C has the elements of A at its even places and those of B at its odd ones.
// Wrong: at the odd places the index of B is rounded up.
// Different at [1] wherever N is 2 or more.
void interleave(int N, double A[N], double B[N], double C[N]) {
  for (int i = 0; i < N; i += 2)
    C[i] = A[floord(i, 2)];
  for (int i = 1; i < N; i += 2)
    C[i] = B[ceild(i, 2)];
}
