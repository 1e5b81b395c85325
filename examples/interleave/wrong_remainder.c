// interleave: C has the elements of A at its even places and those of B at its odd ones.
// Wrong: the remainders are exchanged, so that A stands at the odd places.
// Different at [0] wherever N is 1 or more.
void interleave(int N, double A[N], double B[N], double C[N]) {
  for (int i = 0; i < N; i++)
    if ((i + 1) % 2 == 0)
      C[i] = A[floord(i, 2)];
    else
      C[i] = B[floord(i, 2)];
}
