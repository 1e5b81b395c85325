// copy: C is g of each element of B, in strips of 32 that are counted.
// Wrong: the strips end before floord(N - 1, 32), so the last one is left out.
// Different at the first element of the last strip wherever N is 1 or more.
void copy(int N, double B[N], double C[N]) {
  for (int t = 0; t < floord(N - 1, 32); t++)
    for (int i = 32*t; i <= 32*t + 31 && i < N; i++)
      C[i] = g(B[i]);
}
