// syr2k: C = beta C + alpha A B' + alpha B A', on the diagonal and below; A' and B' are transposed.
// The original: row after row, both products of one k added as one sum.
void syr2k(int N, int M, double alpha, double beta, double C[N][N], double A[N][M], double B[N][M]) {
  int i, j, k;
  for (i = 0; i < N; i++) {
    for (j = 0; j <= i; j++)
      C[i][j] *= beta;
    for (k = 0; k < M; k++)
      for (j = 0; j <= i; j++)
        C[i][j] += A[j][k] * alpha * B[i][k] + B[j][k] * alpha * A[i][k];
  }
}
