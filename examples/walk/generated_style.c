/* The same kernel with its rows tiled by 4 and its loops over rows and columns exchanged, as a code generator prints
   it: floord, min and max are macros, the tiles are counted, and bounds stand in scalars. */
#define floord(n, d) (((n) < 0) ? -((-(n) + (d) - 1) / (d)) : (n) / (d))
#define min(x, y) ((x) < (y) ? (x) : (y))
#define max(x, y) ((x) > (y) ? (x) : (y))

void kernel_smooth(int n, int m, double A[n][m], double B[n][m])
{
  int t1, t2, t3;
  int lb, ub, lbp, ubp;
  register int lbv, ubv;
  lbp = 0;
  ubp = floord(n - 2, 4);
#pragma omp parallel for private(lbv, ubv, t2, t3)
  for (t1 = lbp; t1 <= ubp; t1++) {
    for (t2 = 0; t2 <= m - 1; t2++) {
      lbv = max(1, 4 * t1);
      ubv = min(n - 2, 4 * t1 + 3);
#pragma ivdep
      for (t3 = lbv; t3 <= ubv; t3++)
        B[t3][t2] = 0.5 * A[t3][t2] + 0.25 * (A[t3 - 1][t2] + A[t3 + 1][t2]);
    }
  }
}
