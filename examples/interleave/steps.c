// interleave: C has the elements of A at its even places and those of B at its odd ones.
// A loop with the step 2 for each remainder.
// Equal: each place is assigned once, from the same element.
void interleave(int N, double A[N], double B[N], double C[N]) {
  for (int i = 0; i < N; i += 2)
    C[i] = A[floord(i, 2)];
  for (int i = 1; i < N; i += 2)
    C[i] = B[ceild(i, 2) - 1];
}
