/* atax after fission, with bounds in scalars, as Pluto prints it. */
#define max(x, y) ((x) > (y) ? (x) : (y))
void atax(int M, int N, double A[M][N], double x[N], double y[N]) {
  double tmp[M];
  int t1, t2;
  int lbp, ubp;
  register int lbv, ubv;
  lbp = 0;
  ubp = N - 1;
#pragma omp parallel for
  for (t1 = lbp; t1 <= ubp; t1++)
    y[t1] = 0.0;
  lbp = 0;
  ubp = M - 1;
#pragma omp parallel for private(lbv, ubv, t2)
  for (t1 = lbp; t1 <= ubp; t1++) {
    tmp[t1] = 0.0;
    for (t2 = 0; t2 <= N - 1; t2++)
      tmp[t1] += A[t1][t2] * x[t2];
  }
  for (t1 = 0; t1 <= M - 1; t1++) {
    lbv = max(0, 1 - N);
    ubv = N - 1;
#pragma ivdep
    for (t2 = lbv; t2 <= ubv; t2++)
      y[t2] += A[t1][t2] * tmp[t1];
  }
}
