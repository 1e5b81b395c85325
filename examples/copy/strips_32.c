// copy: C is g of each element of B.
// The loop is cut into strips of 32 that are counted.
// Equal: the strips have every element once.
void copy(int N, double B[N], double C[N]) {
  for (int t = 0; t <= floord(N - 1, 32); t++)
    for (int i = 32*t; i <= 32*t + 31 && i < N; i++)
      C[i] = g(B[i]);
}
