// lcs: the length of the longest common subsequence of a and b; max and match (1 for equal letters) are functions.
// The original: a table whose element [i][j] is the length for the first i and the first j letters.
#pragma affine context N >= 0 && M >= 0
void lcs(int N, int M, int a[N], int b[M], int length[1]) {
  int L[N + 1][M + 1], i, j;
  for (i = 0; i <= N; i++)
    L[i][0] = 0;
  for (j = 1; j <= M; j++)
    L[0][j] = 0;
  for (i = 1; i <= N; i++)
    for (j = 1; j <= M; j++)
      L[i][j] = max(L[i - 1][j - 1] + match(a[i - 1], b[j - 1]), max(L[i - 1][j], L[i][j - 1]));
  length[0] = L[N][M];
}
