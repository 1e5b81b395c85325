// lcs: the length of the longest common subsequence of a and b; max and match (1 for equal letters) are functions.
// The inner max has its arguments exchanged, as declared above, and the loops are interchanged: column after column.
// Equal by this declaration; all three neighbours are still there first.
#pragma affine context N >= 0 && M >= 0
#pragma affine commutative max
void lcs(int N, int M, int a[N], int b[M], int length[1]) {
  int L[N + 1][M + 1], i, j;
  for (i = 0; i <= N; i++)
    L[i][0] = 0;
  for (j = 1; j <= M; j++)
    L[0][j] = 0;
  for (j = 1; j <= M; j++)
    for (i = 1; i <= N; i++)
      L[i][j] = max(L[i - 1][j - 1] + match(a[i - 1], b[j - 1]), max(L[i][j - 1], L[i - 1][j]));
  length[0] = L[N][M];
}
