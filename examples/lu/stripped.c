// lu: A = L U in place, L with ones on its diagonal.
// The columns from the diagonal on are cut into strips of 2, and in a strip the loops over j and k are interchanged.
// Equal: each element takes its products in the order of k.
void lu(int N, double A[N][N]) {
  int i, j, k, jt;
  for (i = 0; i < N; i++) {
    for (j = 0; j < i; j++) {
      for (k = 0; k < j; k++)
        A[i][j] -= A[i][k] * A[k][j];
      A[i][j] /= A[j][j];
    }
    for (jt = i; jt < N; jt += 2)
      for (k = 0; k < i; k++)
        for (j = jt; j < jt + 2 && j < N; j++)
          A[i][j] -= A[i][k] * A[k][j];
  }
}
