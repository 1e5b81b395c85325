// transpose: B is A transposed, in tiles of 4 by 4.
// Wrong: a tile has i < it + 3, one row short, so every fourth column of B keeps its old values.
// Different at [0][3] where N is 4 or more.
void transpose(int N, int M, double A[N][M], double B[M][N]) {
  int i, j, it, jt;
  for (it = 0; it < N; it += 4)
    for (jt = 0; jt < M; jt += 4)
      for (i = it; i < it + 3 && i < N; i++)
        for (j = jt; j < jt + 4 && j < M; j++)
          B[j][i] = A[i][j];
}
