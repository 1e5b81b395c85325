// syr2k: C = beta C + alpha A B' + alpha B A', with the loop over k in strips of 4.
// Wrong: only full strips run, and the rest of the columns is left out.
// Different at the first element where M is no multiple of 4; M = 4 hides it.
void syr2k(int N, int M, double alpha, double beta, double C[N][N], double A[N][M], double B[N][M]) {
  int i, j, k, kt;
  for (i = 0; i < N; i++) {
    for (j = 0; j <= i; j++)
      C[i][j] *= beta;
    for (kt = 0; kt + 4 <= M; kt += 4)
      for (k = kt; k < kt + 4; k++)
        for (j = 0; j <= i; j++)
          C[i][j] += A[j][k] * alpha * B[i][k] + B[j][k] * alpha * A[i][k];
  }
}
