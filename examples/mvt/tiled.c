// mvt: x_1 = x_1 + A y_1 and x_2 = x_2 + A' y_2, where A' is A transposed; two outputs.
// The second nest stands first, and both are tiled by 3 and 4.
// Equal: the tiles of one row of x_1 or x_2 come in the order of j.
void mvt(int N, double x_1[N], double x_2[N], double y_1[N], double y_2[N], double A[N][N]) {
  int i, j, it, jt;
  for (it = 0; it < N; it += 3)
    for (jt = 0; jt < N; jt += 4)
      for (i = it; i < it + 3 && i < N; i++)
        for (j = jt; j < jt + 4 && j < N; j++)
          x_2[i] += A[j][i] * y_2[j];
  for (it = 0; it < N; it += 3)
    for (jt = 0; jt < N; jt += 4)
      for (i = it; i < it + 3 && i < N; i++)
        for (j = jt; j < jt + 4 && j < N; j++)
          x_1[i] += A[i][j] * y_1[j];
}
