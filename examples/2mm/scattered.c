// 2mm: D = beta D + (alpha A B) C.
// Each element of A B is added into the row of D at once (interchange and fusion), so that tmp becomes a scalar.
// Equal: D[i][j] still takes its products in the order of k.
void two_mm(int NI, int NJ, int NK, int NL, double alpha, double beta,
            double A[NI][NK], double B[NK][NJ], double C[NJ][NL], double D[NI][NL]) {
  double t;
  int i, j, k, l;
  for (i = 0; i < NI; i++) {
    for (j = 0; j < NL; j++)
      D[i][j] *= beta;
    for (k = 0; k < NJ; k++) {
      t = 0.0;
      for (l = 0; l < NK; l++)
        t += alpha * A[i][l] * B[l][k];
      for (j = 0; j < NL; j++)
        D[i][j] += t * C[k][j];
    }
  }
}
