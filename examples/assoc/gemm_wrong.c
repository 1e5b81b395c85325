// gemm: C += alpha * A * B.
// Wrong: B is read transposed.
// Unmatched from N = 1, M = 2 and K = 2 on: no order of the factors has B[1][0] where the original has B[0][1].
void gemm(int N, int M, int K, double alpha, const double A[N][K], const double B[K][M], double C[N][M]) {
  for (int i = 0; i < N; i++)
    for (int j = 0; j < M; j++)
      for (int k = 0; k < K; k++)
        C[i][j] += alpha * A[i][k] * B[j][k];
}
