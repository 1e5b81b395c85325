// mvt: x_1 = x_1 + A y_1 and x_2 = x_2 + A' y_2, where A' is A transposed; two outputs.
// The original: one nest for each.
void mvt(int N, double x_1[N], double x_2[N], double y_1[N], double y_2[N], double A[N][N]) {
  int i, j;
  for (i = 0; i < N; i++)
    for (j = 0; j < N; j++)
      x_1[i] += A[i][j] * y_1[j];
  for (i = 0; i < N; i++)
    for (j = 0; j < N; j++)
      x_2[i] += A[j][i] * y_2[j];
}
