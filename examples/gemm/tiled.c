// gemm: C = beta C + alpha A B.
// The scaling has its own loops; the others are tiled by 2, 3 and 4, and && cuts the tiles that stick out.
// Equal: each element is still scaled first, and its products are added in the order of k.
void gemm(int NI, int NJ, int NK, double alpha, double beta,
          double C[NI][NJ], double A[NI][NK], double B[NK][NJ]) {
  int i, j, k, it, jt, kt;
  for (i = 0; i < NI; i++)
    for (j = 0; j < NJ; j++)
      C[i][j] *= beta;
  for (it = 0; it < NI; it += 2)
    for (jt = 0; jt < NJ; jt += 3)
      for (kt = 0; kt < NK; kt += 4)
        for (i = it; i < it + 2 && i < NI; i++)
          for (j = jt; j < jt + 3 && j < NJ; j++)
            for (k = kt; k < kt + 4 && k < NK; k++)
              C[i][j] += alpha * A[i][k] * B[k][j];
}
