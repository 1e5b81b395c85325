// gemver: A = A + u1 v1' + u2 v2', then x = x + beta A' y + z, then w = w + alpha A x; three outputs.
// The loops of the nest for x are interchanged, and it is fused with the update of A; z is added in a loop of its own.
// Equal: x[j] still takes the rows in order, and each element of A is updated just before it is read.
void gemver(int N, double alpha, double beta, double A[N][N], double u1[N], double v1[N], double u2[N],
            double v2[N], double w[N], double x[N], double y[N], double z[N]) {
  int i, j;
  for (i = 0; i < N; i++)
    for (j = 0; j < N; j++) {
      A[i][j] = A[i][j] + u1[i] * v1[j] + u2[i] * v2[j];
      x[j] = x[j] + beta * A[i][j] * y[i];
    }
  for (i = 0; i < N; i++)
    x[i] = x[i] + z[i];
  for (i = 0; i < N; i++)
    for (j = 0; j < N; j++)
      w[i] = w[i] + alpha * A[i][j] * x[j];
}
