// lu: A = L U in place, each row in strips of 16 columns that are counted.
// Wrong: the strips behind the diagonal start at ceild(i, 16), so that the rest of the strip in which the diagonal stands is left out.
// Different from N = 2 on, first at [1][1].
void lu(int N, double A[N][N]) {
  int i, j, k, jt;
  for (i = 0; i < N; i++) {
    for (jt = 0; jt <= floord(i - 1, 16); jt++)
      for (j = 16*jt; j <= 16*jt + 15 && j < i; j++) {
        for (k = 0; k < j; k++)
          A[i][j] -= A[i][k] * A[k][j];
        A[i][j] /= A[j][j];
      }
    for (jt = ceild(i, 16); jt <= floord(N - 1, 16); jt++)
      for (k = 0; k < i; k++)
        for (j = 16*jt; j <= 16*jt + 15 && j < N; j++)
          if (j >= i)
            A[i][j] -= A[i][k] * A[k][j];
  }
}
