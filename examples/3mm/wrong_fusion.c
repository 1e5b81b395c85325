// 3mm: G = (A B) (C D), all square, with the outer loops of all three nests fused.
// Wrong: row i of G reads all rows of F, and those after i are not there yet.
// Different at the first element where N is 2 or more: it reads F[1][0] before it is assigned.
void three_mm(int N, double A[N][N], double B[N][N], double C[N][N], double D[N][N], double G[N][N]) {
  double E[N][N], F[N][N];
  int i, j, k;
  for (i = 0; i < N; i++) {
    for (j = 0; j < N; j++) {
      E[i][j] = 0.0;
      F[i][j] = 0.0;
      for (k = 0; k < N; k++) {
        E[i][j] += A[i][k] * B[k][j];
        F[i][j] += C[i][k] * D[k][j];
      }
    }
    for (j = 0; j < N; j++) {
      G[i][j] = 0.0;
      for (k = 0; k < N; k++)
        G[i][j] += E[i][k] * F[k][j];
    }
  }
}
