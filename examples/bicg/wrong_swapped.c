// bicg: s = A' r and q = A p, with the factors of one product exchanged.
// Wrong: no line declares * as commutative, so r[i] * A[i][j] and A[i][j] * r[i] are different terms.
// s is different at its first element, q is equal.
void bicg(int M, int N, double A[N][M], double s[M], double q[N], double p[M], double r[N]) {
  int i, j;
  for (j = 0; j < M; j++)
    s[j] = 0.0;
  for (i = 0; i < N; i++) {
    q[i] = 0.0;
    for (j = 0; j < M; j++) {
      s[j] += A[i][j] * r[i];
      q[i] += A[i][j] * p[j];
    }
  }
}
