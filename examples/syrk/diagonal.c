// syrk: C = beta C + alpha A A', on the diagonal and below; A' is A transposed.
// The indices are split: the elements below the diagonal come first, those on it in a loop of their own.
// Equal: no element reads another one of C.
void syrk(int N, int M, double alpha, double beta, double C[N][N], double A[N][M]) {
  int i, j, k;
  for (i = 1; i < N; i++)
    for (j = 0; j < i; j++) {
      C[i][j] *= beta;
      for (k = 0; k < M; k++)
        C[i][j] += alpha * A[i][k] * A[j][k];
    }
  for (i = 0; i < N; i++) {
    C[i][i] *= beta;
    for (k = 0; k < M; k++)
      C[i][i] += alpha * A[i][k] * A[i][k];
  }
}
