// lu: A = L U in place, L with ones on its diagonal.
// The loop over k is interchanged to the outside: as soon as a pivot is known, all that is below and right is updated.
// Equal: each element still takes its products in the order of k, and is divided after the last one.
void lu(int N, double A[N][N]) {
  int i, j, k;
  for (k = 0; k < N; k++) {
    for (i = k + 1; i < N; i++)
      A[i][k] /= A[k][k];
    for (i = k + 1; i < N; i++)
      for (j = k + 1; j < N; j++)
        A[i][j] -= A[i][k] * A[k][j];
  }
}
