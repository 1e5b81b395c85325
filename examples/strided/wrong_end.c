// strided: of the elements from M on C takes every third one from B.
// Wrong: the end is one off: q runs to floord(N - 2, 3), which leaves out the last element if N - 1 is a multiple of 3.
// Different at [N-1] where 3 divides N - 1 and M is at most N - 1.
void strided(int M, int N, double B[N], double C[N]) {
  int q;
  for (q = ceild(M, 3); q <= floord(N - 2, 3); q++)
    C[3*q] = g(B[3*q]);
}
