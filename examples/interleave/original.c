// interleave: C has the elements of A at its even places and those of B at its odd ones.
// The original: place after place, with a test of the divisor 2.
void interleave(int N, double A[N], double B[N], double C[N]) {
  for (int i = 0; i < N; i++)
    if (i % 2 == 0)
      C[i] = A[floord(i, 2)];
    else
      C[i] = B[floord(i, 2)];
}
