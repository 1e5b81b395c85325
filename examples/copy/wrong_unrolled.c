// copy: C is g of each element of B, with the loop unrolled by 4.
// Wrong: the remainder starts at 4 ceild(N, 4), behind the last element.
// Different at the first element behind the last full block; where 4 divides N nothing shows.
void copy(int N, double B[N], double C[N]) {
  int i, t;
  for (t = 0; t < floord(N, 4); t++) {
    C[4*t] = g(B[4*t]);
    C[4*t + 1] = g(B[4*t + 1]);
    C[4*t + 2] = g(B[4*t + 2]);
    C[4*t + 3] = g(B[4*t + 3]);
  }
  for (i = 4*ceild(N, 4); i < N; i++)
    C[i] = g(B[i]);
}
