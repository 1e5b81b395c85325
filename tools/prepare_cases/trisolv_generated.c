/* trisolv with its columns in blocks of 2 that are counted, as CLooG prints it. */
#define ceild(n, d) (((n) < 0) ? -((-(n)) / (d)) : ((n) + (d) - 1) / (d))
#define floord(n, d) (((n) < 0) ? -((-(n) + (d) - 1) / (d)) : (n) / (d))
#define max(x, y) ((x) > (y) ? (x) : (y))
#define min(x, y) ((x) < (y) ? (x) : (y))
void trisolv(int N, double L[N][N], double x[N], double b[N]) {
  int c1, c2, c3;
  for (c1 = max(0, ceild(1 - N, 2)); c1 <= N - 1; c1++) {
    x[c1] = b[c1];
    for (c2 = 0; c2 <= floord(c1 - 1, 2); c2++)
      for (c3 = 2 * c2; c3 <= min(c1 - 1, 2 * c2 + 1); c3++)
        x[c1] -= L[c1][c3] * x[c3];
    x[c1] = x[c1] / L[c1][c1];
  }
}
