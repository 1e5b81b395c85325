// gemm: C = beta C + alpha A B.
// The loop over k is unrolled by 4; a remainder loop takes what is left, found as the block that reaches past NK.
// Equal: the same products are added in the same order.
void gemm(int NI, int NJ, int NK, double alpha, double beta,
          double C[NI][NJ], double A[NI][NK], double B[NK][NJ]) {
  int i, j, k, block;
  for (i = 0; i < NI; i++)
    for (j = 0; j < NJ; j++) {
      C[i][j] *= beta;
      for (k = 0; k + 3 < NK; k += 4) {
        C[i][j] += alpha * A[i][k] * B[k][j];
        C[i][j] += alpha * A[i][k + 1] * B[k + 1][j];
        C[i][j] += alpha * A[i][k + 2] * B[k + 2][j];
        C[i][j] += alpha * A[i][k + 3] * B[k + 3][j];
      }
      for (block = 0; block < NK; block += 4)
        for (k = block; block + 3 >= NK && k < NK; k++)
          C[i][j] += alpha * A[i][k] * B[k][j];
    }
}
