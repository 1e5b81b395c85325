// cholesky: A = L L' in place, on the diagonal and below; sqrt is a function like any other.
// The original: row after row, the diagonal element last.
#include <math.h>
void cholesky(int N, double A[N][N]) {
  int i, j, k;
  for (i = 0; i < N; i++) {
    for (j = 0; j < i; j++) {
      for (k = 0; k < j; k++)
        A[i][j] -= A[i][k] * A[j][k];
      A[i][j] /= A[j][j];
    }
    for (k = 0; k < i; k++)
      A[i][i] -= A[i][k] * A[i][k];
    A[i][i] = sqrt(A[i][i]);
  }
}
