// gemm: C = beta C + alpha A B, with the loop over k in tiles of 4.
// Wrong: a tile ends one short, at kt + 3, so the last product of each full tile is never added.
// Different at the first element wherever NK is 4 or more; a smaller NK hides it.
void gemm(int NI, int NJ, int NK, double alpha, double beta,
          double C[NI][NJ], double A[NI][NK], double B[NK][NJ]) {
  int i, j, k, kt;
  for (i = 0; i < NI; i++)
    for (j = 0; j < NJ; j++) {
      C[i][j] *= beta;
      for (kt = 0; kt < NK; kt += 4)
        for (k = kt; k < kt + 3 && k < NK; k++)
          C[i][j] += alpha * A[i][k] * B[k][j];
    }
}
