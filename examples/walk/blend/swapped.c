// blend, with both arguments of the second half the other way round.
#pragma affine commutative +
void blend(int N, double A[2*N], double B[2*N], double C[2*N]) {
  double P[2*N], Q[2*N];
  for (int i = 0; i < N; i++) {
    P[i] = A[i];
    Q[i] = B[i];
    P[N + i] = B[N + i];
    Q[N + i] = A[N + i];
  }
  for (int i = 0; i < 2*N; i++)
    C[i] = P[i] + Q[i];
}
