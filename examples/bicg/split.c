// bicg: s = A' r and q = A p, where A' is A transposed; two outputs.
// The nest is split in two, and the loops of the part for s are interchanged.
// Equal: s[j] still takes the rows in order, and neither part reads what the other writes.
void bicg(int M, int N, double A[N][M], double s[M], double q[N], double p[M], double r[N]) {
  int i, j;
  for (j = 0; j < M; j++) {
    s[j] = 0.0;
    for (i = 0; i < N; i++)
      s[j] += r[i] * A[i][j];
  }
  for (i = 0; i < N; i++) {
    q[i] = 0.0;
    for (j = 0; j < M; j++)
      q[i] += A[i][j] * p[j];
  }
}
