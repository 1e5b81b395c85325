// cholesky: A = L L' in place, on the diagonal and below; sqrt is a function like any other.
// The loop of the diagonal element is fused into the loop over j: each element is taken off as soon as it is known.
// Equal: A[i][j] is whole when its square is taken off, and the squares keep their order.
#include <math.h>
void cholesky(int N, double A[N][N]) {
  int i, j, k;
  for (i = 0; i < N; i++) {
    for (j = 0; j < i; j++) {
      for (k = 0; k < j; k++)
        A[i][j] -= A[i][k] * A[j][k];
      A[i][j] /= A[j][j];
      A[i][i] -= A[i][j] * A[i][j];
    }
    A[i][i] = sqrt(A[i][i]);
  }
}
