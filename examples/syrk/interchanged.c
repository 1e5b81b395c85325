// syrk: C = beta C + alpha A A', on the diagonal and below; A' is A transposed.
// The loops over k and j are interchanged, and the scaling is fused into the loop over j.
// Equal: each element is scaled first and then takes its products in the order of k.
void syrk(int N, int M, double alpha, double beta, double C[N][N], double A[N][M]) {
  int i, j, k;
  for (i = 0; i < N; i++)
    for (j = 0; j <= i; j++) {
      C[i][j] *= beta;
      for (k = 0; k < M; k++)
        C[i][j] += alpha * A[i][k] * A[j][k];
    }
}
