// transpose: B is A transposed.
// The indices are split along the diagonal: first what lies on it and below, then what lies above.
// Equal: both parts together have every element once, also where A isn't square.
void transpose(int N, int M, double A[N][M], double B[M][N]) {
  int i, j;
  for (i = 0; i < N; i++)
    for (j = 0; j <= i && j < M; j++)
      B[j][i] = A[i][j];
  for (i = 0; i < N; i++)
    for (j = i + 1; j < M; j++)
      B[j][i] = A[i][j];
}
