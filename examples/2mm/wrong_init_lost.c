// 2mm: D = beta D + (alpha A B) C, each element of A B added into the row of D at once.
// Wrong: t starts at 0.0 once a row and no longer once an element of A B.
// Different at the first element where NJ is 2 or more: its second product still has the first sum in it.
void two_mm(int NI, int NJ, int NK, int NL, double alpha, double beta,
            double A[NI][NK], double B[NK][NJ], double C[NJ][NL], double D[NI][NL]) {
  double t;
  int i, j, k, l;
  for (i = 0; i < NI; i++) {
    for (j = 0; j < NL; j++)
      D[i][j] *= beta;
    t = 0.0;
    for (k = 0; k < NJ; k++) {
      for (l = 0; l < NK; l++)
        t += alpha * A[i][l] * B[l][k];
      for (j = 0; j < NL; j++)
        D[i][j] += t * C[k][j];
    }
  }
}
