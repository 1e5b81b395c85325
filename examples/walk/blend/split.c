// blend as in swapped.c, where each half has an assignment of its own.
#pragma affine commutative +
void blend(int N, double A[2*N], double B[2*N], double C[2*N]) {
  double P[2*N], Q[2*N];
  for (int i = 0; i < N; i++) {
    P[i] = A[i];
    Q[i] = B[i];
    P[N + i] = B[N + i];
    Q[N + i] = A[N + i];
  }
  for (int i = 0; i < N; i++)
    C[i] = P[i] + Q[i];
  for (int i = N; i < 2*N; i++)
    C[i] = P[i] + Q[i];
}
