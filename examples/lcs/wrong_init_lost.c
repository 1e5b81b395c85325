// lcs: the length of the longest common subsequence of a and b, in one row that is overwritten.
// Wrong: only row[0] starts at 0; the start of the other elements was lost with the table.
// Different at [0], the only element, where N and M are 1 or more.
#pragma affine context N >= 0 && M >= 0
void lcs(int N, int M, int a[N], int b[M], int length[1]) {
  int row[M + 1], corner, above, i, j;
  row[0] = 0;
  for (i = 1; i <= N; i++) {
    corner = row[0];
    row[0] = 0;
    for (j = 1; j <= M; j++) {
      above = row[j];
      row[j] = max(corner + match(a[i - 1], b[j - 1]), max(above, row[j - 1]));
      corner = above;
    }
  }
  length[0] = row[M];
}
