// trisolv: the solution x of L x = b, with the rows taken from the last to the first.
// Wrong: row i reads the solutions before it, and none of them is there yet.
// Different at element [1] where N is 2 or more; x[0] needs no other one.
void trisolv(int N, double L[N][N], double x[N], double b[N]) {
  int i, j;
  for (i = N - 1; i >= 0; i--) {
    x[i] = b[i];
    for (j = 0; j < i; j++)
      x[i] -= L[i][j] * x[j];
    x[i] = x[i] / L[i][i];
  }
}
