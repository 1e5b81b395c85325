// 3mm: G = (A B) (C D), all square.
// F comes first; then the outer loops of E and G are fused, so that one row of E is enough at a time.
// Equal: row i of G reads row i of E, and all of F, which is whole by then.
void three_mm(int N, double A[N][N], double B[N][N], double C[N][N], double D[N][N], double G[N][N]) {
  double E[N][N], F[N][N];
  int i, j, k;
  for (i = 0; i < N; i++)
    for (j = 0; j < N; j++) {
      F[i][j] = 0.0;
      for (k = 0; k < N; k++)
        F[i][j] += C[i][k] * D[k][j];
    }
  for (i = 0; i < N; i++) {
    for (j = 0; j < N; j++) {
      E[i][j] = 0.0;
      for (k = 0; k < N; k++)
        E[i][j] += A[i][k] * B[k][j];
    }
    for (j = 0; j < N; j++) {
      G[i][j] = 0.0;
      for (k = 0; k < N; k++)
        G[i][j] += E[i][k] * F[k][j];
    }
  }
}
