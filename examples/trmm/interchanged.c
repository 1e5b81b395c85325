// trmm: B = alpha A' B, with A lower triangular, ones on its diagonal; A' is A transposed.
// The loops over i and j are interchanged: one column of B after the other.
// Equal: the columns don't meet, and within one the rows keep their order.
void trmm(int M, int N, double alpha, double A[M][M], double B[M][N]) {
  int i, j, k;
  for (j = 0; j < N; j++)
    for (i = 0; i < M; i++) {
      for (k = i + 1; k < M; k++)
        B[i][j] += A[k][i] * B[k][j];
      B[i][j] = alpha * B[i][j];
    }
}
