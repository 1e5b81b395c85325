// lcs: the length of the longest common subsequence of a and b; max and match (1 for equal letters) are functions.
// The table is removed: one row is kept, and two scalars hold the element above left while it is overwritten.
// Equal: row[j] is the element above until it is assigned, row[j - 1] the one to the left.
#pragma affine context N >= 0 && M >= 0
void lcs(int N, int M, int a[N], int b[M], int length[1]) {
  int row[M + 1], corner, above, i, j;
  for (j = 0; j <= M; j++)
    row[j] = 0;
  for (i = 1; i <= N; i++) {
    corner = row[0];
    row[0] = 0;
    for (j = 1; j <= M; j++) {
      above = row[j];
      row[j] = max(corner + match(a[i - 1], b[j - 1]), max(above, row[j - 1]));
      corner = above;
    }
  }
  length[0] = row[M];
}
