// lcs: the length of the longest common subsequence of a and b, with each row taken from the right to the left.
// Wrong: an element reads its left neighbour before that is assigned.
// Different at [0], the only element, where N is 1 or more and M is 2 or more.
#pragma affine context N >= 0 && M >= 0
void lcs(int N, int M, int a[N], int b[M], int length[1]) {
  int L[N + 1][M + 1], i, j;
  for (i = 0; i <= N; i++)
    L[i][0] = 0;
  for (j = 1; j <= M; j++)
    L[0][j] = 0;
  for (i = 1; i <= N; i++)
    for (j = M; j >= 1; j--)
      L[i][j] = max(L[i - 1][j - 1] + match(a[i - 1], b[j - 1]), max(L[i - 1][j], L[i][j - 1]));
  length[0] = L[N][M];
}
