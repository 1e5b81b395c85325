// gemm: C = beta C + alpha A B, with the loop over k in tiles of 32 that are counted.
// Wrong: the tiles end at floord(NK, 32) - 1, which rounds the last one away unless it is full.
// Different at the first element unless 32 divides NK.
void gemm(int NI, int NJ, int NK, double alpha, double beta,
          double C[NI][NJ], double A[NI][NK], double B[NK][NJ]) {
  int t3, i, j, k;
  for (i = 0; i < NI; i++)
    for (j = 0; j < NJ; j++) {
      C[i][j] *= beta;
      for (t3 = 0; t3 <= floord(NK, 32) - 1; t3++)
        for (k = 32*t3; k <= 32*t3 + 31 && k <= NK - 1; k++)
          C[i][j] += alpha * A[i][k] * B[k][j];
    }
}
