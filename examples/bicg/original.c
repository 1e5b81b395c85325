// bicg: s = A' r and q = A p, where A' is A transposed; two outputs.
// The original: both products in one nest, row after row.
void bicg(int M, int N, double A[N][M], double s[M], double q[N], double p[M], double r[N]) {
  int i, j;
  for (j = 0; j < M; j++)
    s[j] = 0.0;
  for (i = 0; i < N; i++) {
    q[i] = 0.0;
    for (j = 0; j < M; j++) {
      s[j] += r[i] * A[i][j];
      q[i] += A[i][j] * p[j];
    }
  }
}
