// seidel-1d: T sweeps of the three-point mean over a row, in place; the ends stay.
// The original: from left to right, each element reads its new left neighbour and its old right one.
void seidel_1d(int T, int N, double A[N]) {
  int t, i;
  for (t = 0; t < T; t++)
    for (i = 1; i < N - 1; i++)
      A[i] = (A[i - 1] + A[i] + A[i + 1]) / 3.0;
}
