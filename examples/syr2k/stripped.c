// syr2k: C = beta C + alpha A B' + alpha B A', on the diagonal and below; A' and B' are transposed.
// The loop over k is cut into strips of 4, the last one shorter by &&.
// Equal: the strips run through k in order.
void syr2k(int N, int M, double alpha, double beta, double C[N][N], double A[N][M], double B[N][M]) {
  int i, j, k, kt;
  for (i = 0; i < N; i++) {
    for (j = 0; j <= i; j++)
      C[i][j] *= beta;
    for (kt = 0; kt < M; kt += 4)
      for (k = kt; k < kt + 4 && k < M; k++)
        for (j = 0; j <= i; j++)
          C[i][j] += A[j][k] * alpha * B[i][k] + B[j][k] * alpha * A[i][k];
  }
}
