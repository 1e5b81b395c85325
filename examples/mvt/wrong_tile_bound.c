// mvt: x_1 = x_1 + A y_1 and x_2 = x_2 + A' y_2, with the loop over j of the first nest in tiles of 4.
// Wrong: the tile ends with j <= jt + 2, one short, so column 3 is left out.
// x_1 is different at its first element where N is 4 or more, x_2 is equal.
void mvt(int N, double x_1[N], double x_2[N], double y_1[N], double y_2[N], double A[N][N]) {
  int i, j, jt;
  for (i = 0; i < N; i++)
    for (jt = 0; jt < N; jt += 4)
      for (j = jt; j <= jt + 2 && j < N; j++)
        x_1[i] += A[i][j] * y_1[j];
  for (i = 0; i < N; i++)
    for (j = 0; j < N; j++)
      x_2[i] += A[j][i] * y_2[j];
}
