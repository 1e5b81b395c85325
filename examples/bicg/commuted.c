// bicg: s = A' r and q = A p, where A' is A transposed; two outputs.
// The factors of both products are exchanged, and the line above the function declares * as commutative.
// Equal by this declaration: in all else the program is the original.
#pragma affine commutative *
void bicg(int M, int N, double A[N][M], double s[M], double q[N], double p[M], double r[N]) {
  int i, j;
  for (j = 0; j < M; j++)
    s[j] = 0.0;
  for (i = 0; i < N; i++) {
    q[i] = 0.0;
    for (j = 0; j < M; j++) {
      s[j] += A[i][j] * r[i];
      q[i] += p[j] * A[i][j];
    }
  }
}
