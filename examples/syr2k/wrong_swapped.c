// syr2k: C = beta C + alpha A B' + alpha B A', with the two products of one k exchanged.
// Wrong: no line declares + as commutative.
// Different at the first element wherever there is one and M is 1 or more.
void syr2k(int N, int M, double alpha, double beta, double C[N][N], double A[N][M], double B[N][M]) {
  int i, j, k;
  for (i = 0; i < N; i++) {
    for (j = 0; j <= i; j++)
      C[i][j] *= beta;
    for (k = 0; k < M; k++)
      for (j = 0; j <= i; j++)
        C[i][j] += B[j][k] * alpha * A[i][k] + A[j][k] * alpha * B[i][k];
  }
}
