// blend: C = A + B, over 2N elements.
#pragma affine commutative +
void blend(int N, double A[2*N], double B[2*N], double C[2*N]) {
  for (int i = 0; i < 2*N; i++)
    C[i] = A[i] + B[i];
}
