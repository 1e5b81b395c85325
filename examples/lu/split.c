// lu: A = L U in place, L with ones on its diagonal.
// The indices of the second loop over j are split into the rest of the row, which comes first, and the pivot, j = i.
// Equal: from the diagonal on the elements of a row don't read each other, and both parts come before the next row.
void lu(int N, double A[N][N]) {
  int i, j, k;
  for (i = 0; i < N; i++) {
    for (j = 0; j < i; j++) {
      for (k = 0; k < j; k++)
        A[i][j] -= A[i][k] * A[k][j];
      A[i][j] /= A[j][j];
    }
    for (j = i + 1; j < N; j++)
      for (k = 0; k < i; k++)
        A[i][j] -= A[i][k] * A[k][j];
    for (k = 0; k < i; k++)
      A[i][i] -= A[i][k] * A[k][i];
  }
}
