// gemm: C = beta C + alpha A B, with the loops over j and k interchanged.
// Wrong: the scaling by beta stood between the loops and was lost with the interchange.
// Different at the first element, also where there is no product to add.
void gemm(int NI, int NJ, int NK, double alpha, double beta,
          double C[NI][NJ], double A[NI][NK], double B[NK][NJ]) {
  int i, j, k;
  for (i = 0; i < NI; i++)
    for (k = 0; k < NK; k++)
      for (j = 0; j < NJ; j++)
        C[i][j] += alpha * A[i][k] * B[k][j];
}
