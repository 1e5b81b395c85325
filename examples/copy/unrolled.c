// copy: C is g of each element of B.
// The loop is unrolled by 4; the remainder starts at the greatest multiple of 4 that is at most N.
// Equal: the blocks and the remainder have every element once.
void copy(int N, double B[N], double C[N]) {
  int i, t;
  for (t = 0; t < floord(N, 4); t++) {
    C[4*t] = g(B[4*t]);
    C[4*t + 1] = g(B[4*t + 1]);
    C[4*t + 2] = g(B[4*t + 2]);
    C[4*t + 3] = g(B[4*t + 3]);
  }
  for (i = 4*floord(N, 4); i < N; i++)
    C[i] = g(B[i]);
}
