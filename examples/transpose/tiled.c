// transpose: B is A transposed.
// Both loops are cut into tiles of 4 by 4; && cuts the tiles that stick out.
// Equal: the tiles have every element once.
void transpose(int N, int M, double A[N][M], double B[M][N]) {
  int i, j, it, jt;
  for (it = 0; it < N; it += 4)
    for (jt = 0; jt < M; jt += 4)
      for (i = it; i < it + 4 && i < N; i++)
        for (j = jt; j < jt + 4 && j < M; j++)
          B[j][i] = A[i][j];
}
