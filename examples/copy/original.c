// copy: C is g of each element of B.
// The original: element after element.
void copy(int N, double B[N], double C[N]) {
  for (int i = 0; i < N; i++)
    C[i] = g(B[i]);
}
