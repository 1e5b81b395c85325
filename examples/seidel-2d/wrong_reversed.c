// seidel-2d: T sweeps of the nine-point mean over a square, in place, each row taken from the right to the left.
// Wrong: an element then reads its new right neighbour and its old left one.
// Different at the first inner element where N is 4 or more; N = 3 has a single one and hides it.
void seidel_2d(int T, int N, double A[N][N]) {
  int t, i, j;
  for (t = 0; t < T; t++)
    for (i = 1; i < N - 1; i++)
      for (j = N - 2; j >= 1; j--)
        A[i][j] = (A[i - 1][j - 1] + A[i - 1][j] + A[i - 1][j + 1] + A[i][j - 1] + A[i][j] + A[i][j + 1]
                   + A[i + 1][j - 1] + A[i + 1][j] + A[i + 1][j + 1]) / 9.0;
}
