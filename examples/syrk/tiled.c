// syrk: C = beta C + alpha A A', on the diagonal and below; A' is A transposed.
// The triangle is cut into tiles of 3 by 3; the tiles on the diagonal are cut by j <= i.
// Equal: the tiles have every element of the triangle once, and its products keep the order of k.
void syrk(int N, int M, double alpha, double beta, double C[N][N], double A[N][M]) {
  int i, j, k, it, jt;
  for (it = 0; it < N; it += 3)
    for (jt = 0; jt <= it; jt += 3)
      for (i = it; i < it + 3 && i < N; i++)
        for (j = jt; j < jt + 3 && j <= i; j++) {
          C[i][j] *= beta;
          for (k = 0; k < M; k++)
            C[i][j] += alpha * A[i][k] * A[j][k];
        }
}
