// lcs: the length of the longest common subsequence of a and b; max and match (1 for equal letters) are functions.
// j is skewed by i to w = i + j, and w goes outside: one diagonal of the table after the other, cut by an if.
// Equal: the three neighbours of an element lie on the two diagonals before its own.
#pragma affine context N >= 0 && M >= 0
void lcs(int N, int M, int a[N], int b[M], int length[1]) {
  int L[N + 1][M + 1], i, j, w;
  for (i = 0; i <= N; i++)
    L[i][0] = 0;
  for (j = 1; j <= M; j++)
    L[0][j] = 0;
  for (w = 2; w <= N + M; w++)
    for (i = 1; i <= N && i < w; i++)
      if (w - i <= M)
        L[i][w - i] = max(L[i - 1][w - i - 1] + match(a[i - 1], b[w - i - 1]),
                          max(L[i - 1][w - i], L[i][w - i - 1]));
  length[0] = L[N][M];
}
