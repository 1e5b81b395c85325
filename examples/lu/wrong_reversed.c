// lu: A = L U in place, with the products on and right of the diagonal taken from the last k to the first.
// Wrong: the difference is carried from k to k, so it is formed in another order.
// Different at element [2][2], the first one of those that takes two products.
void lu(int N, double A[N][N]) {
  int i, j, k;
  for (i = 0; i < N; i++) {
    for (j = 0; j < i; j++) {
      for (k = 0; k < j; k++)
        A[i][j] -= A[i][k] * A[k][j];
      A[i][j] /= A[j][j];
    }
    for (j = i; j < N; j++)
      for (k = i - 1; k >= 0; k--)
        A[i][j] -= A[i][k] * A[k][j];
  }
}
