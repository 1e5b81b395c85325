// gemm: C += alpha * A * B.
// The original: the product from the left.
void gemm(int N, int M, int K, double alpha, const double A[N][K], const double B[K][M], double C[N][M]) {
  for (int i = 0; i < N; i++)
    for (int j = 0; j < M; j++)
      for (int k = 0; k < K; k++)
        C[i][j] += alpha * A[i][k] * B[k][j];
}
