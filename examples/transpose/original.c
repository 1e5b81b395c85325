// transpose: B is A transposed.
// The original: row after row of A.
void transpose(int N, int M, double A[N][M], double B[M][N]) {
  int i, j;
  for (i = 0; i < N; i++)
    for (j = 0; j < M; j++)
      B[j][i] = A[i][j];
}
