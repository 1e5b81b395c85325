// transpose: B is A transposed.
// The loops are interchanged, so that B is written row after row, and each row from its end.
// Equal: the elements don't meet.
void transpose(int N, int M, double A[N][M], double B[M][N]) {
  for (int j = 0; j < M; ++j)
    for (int i = N - 1; i >= 0; --i)
      B[j][i] = A[i][j];
}
