// cholesky: A = L L' in place, on the diagonal and below; sqrt is a function like any other.
// The loop over k is interchanged to the outside: as soon as a column is known, all columns right of it are updated.
// Equal: each element still takes its products in the order of k, and is divided or rooted after the last one.
#include <math.h>
void cholesky(int N, double A[N][N]) {
  int i, j, k;
  for (k = 0; k < N; k++) {
    A[k][k] = sqrt(A[k][k]);
    for (i = k + 1; i < N; i++)
      A[i][k] /= A[k][k];
    for (i = k + 1; i < N; i++)
      for (j = k + 1; j <= i; j++)
        A[i][j] -= A[i][k] * A[j][k];
  }
}
