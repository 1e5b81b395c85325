/* jacobi-1d with bounds that need not be as they are, as isl prints them. */
#define min(x, y) ((x) < (y) ? (x) : (y))
#define max(x, y) ((x) > (y) ? (x) : (y))
void jacobi_1d(int T, int N, double A[N], double B[N]) {
  for (int c0 = 0; c0 < T; c0 += 1) {
    for (int c1 = max(1, 2 - N); c1 <= min(N - 2, 2 * N); c1 += 1)
      B[c1] = 0.33333 * (A[c1 - 1] + A[c1] + A[c1 + 1]);
    for (int c1 = 1; N >= c1 + 2; c1 += 1)
      A[c1] = 0.33333 * (B[c1 - 1] + B[c1] + B[c1 + 1]);
  }
}
