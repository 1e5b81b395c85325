// interleave: C has the elements of A at its even places and those of B at its odd ones.
// A loop for each remainder, that counts the elements of A and of B.
// Equal: 2 i is below N up to i = floord(N - 1, 2), and 2 i + 1 up to floord(N, 2) - 1.
void interleave(int N, double A[N], double B[N], double C[N]) {
  for (int i = 0; i <= floord(N - 1, 2); i++)
    C[2*i] = A[i];
  for (int i = 0; i <= floord(N, 2) - 1; i++)
    C[2*i + 1] = B[i];
}
