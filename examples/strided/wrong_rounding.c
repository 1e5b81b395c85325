// strided: of the elements from M on C takes every third one from B.
// Wrong: the start is rounded down, so that the multiple of 3 before M is assigned too.
// Different at that element unless 3 divides M: at [3 floord(M, 3)].
void strided(int M, int N, double B[N], double C[N]) {
  int q;
  for (q = floord(M, 3); q <= floord(N - 1, 3); q++)
    C[3*q] = g(B[3*q]);
}
