// lu: A = L U in place, L with ones on its diagonal.
// Each row is cut into strips of 16 columns that are counted; behind the diagonal the loops over j and k are interchanged in a strip.
// Behind the diagonal all strips are counted, and an if cuts them to it.
// Equal: the strips have each column once, in order, and each element takes its products in the order of k.
void lu(int N, double A[N][N]) {
  int i, j, k, jt;
  for (i = 0; i < N; i++) {
    for (jt = 0; jt <= floord(i - 1, 16); jt++)
      for (j = 16*jt; j <= 16*jt + 15 && j < i; j++) {
        for (k = 0; k < j; k++)
          A[i][j] -= A[i][k] * A[k][j];
        A[i][j] /= A[j][j];
      }
    for (jt = 0; jt <= floord(N - 1, 16); jt++)
      for (k = 0; k < i; k++)
        for (j = 16*jt; j <= 16*jt + 15 && j < N; j++)
          if (j >= i)
            A[i][j] -= A[i][k] * A[k][j];
  }
}
