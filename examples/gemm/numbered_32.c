// gemm: C = beta C + alpha A B.
// The loops of both statements are tiled by 32, as a code generator prints it: tiles are counted, and floord gives the last one.
// Equal: the tiles have every element once, and its products are added in the order of k.
void gemm(int NI, int NJ, int NK, double alpha, double beta,
          double C[NI][NJ], double A[NI][NK], double B[NK][NJ]) {
  int t1, t2, t3, i, j, k;
  for (t1 = 0; t1 <= floord(NI - 1, 32); t1++)
    for (t2 = 0; t2 <= floord(NJ - 1, 32); t2++)
      for (i = 32*t1; i <= 32*t1 + 31 && i <= NI - 1; i++)
        for (j = 32*t2; j <= 32*t2 + 31 && j <= NJ - 1; j++)
          C[i][j] *= beta;
  for (t1 = 0; t1 <= floord(NI - 1, 32); t1++)
    for (t2 = 0; t2 <= floord(NJ - 1, 32); t2++)
      for (t3 = 0; t3 <= floord(NK - 1, 32); t3++)
        for (i = 32*t1; i <= 32*t1 + 31 && i <= NI - 1; i++)
          for (j = 32*t2; j <= 32*t2 + 31 && j <= NJ - 1; j++)
            for (k = 32*t3; k <= 32*t3 + 31 && k <= NK - 1; k++)
              C[i][j] += alpha * A[i][k] * B[k][j];
}
