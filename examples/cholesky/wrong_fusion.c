// cholesky: A = L L' in place, with the loop of the diagonal element fused into the loop over j.
// Wrong: the square of A[i][j] is taken off before A[i][j] is divided.
// Different at element [1][1], the first diagonal element with something to take off.
#include <math.h>
void cholesky(int N, double A[N][N]) {
  int i, j, k;
  for (i = 0; i < N; i++) {
    for (j = 0; j < i; j++) {
      for (k = 0; k < j; k++)
        A[i][j] -= A[i][k] * A[j][k];
      A[i][i] -= A[i][j] * A[i][j];
      A[i][j] /= A[j][j];
    }
    A[i][i] = sqrt(A[i][i]);
  }
}
