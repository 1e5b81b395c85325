/* gemm with its rows in tiles of 4 that are counted, as Pluto prints it. */
#define floord(n, d) floor(((double) (n)) / ((double) (d)))
#define min(x, y) ((x) < (y) ? (x) : (y))
void gemm(int NI, int NJ, int NK, double alpha, double beta, double C[NI][NJ], double A[NI][NK], double B[NK][NJ]) {
  int t1, t2, t3, t4;
  int lb, ub, lbp, ubp, lb2, ub2;
  register int lbv, ubv;
  if ((NI >= 1) && (NJ >= 1)) {
    lbp = 0;
    ubp = floord(NI - 1, 4);
#pragma omp parallel for private(lbv, ubv, t2, t3, t4)
    for (t1 = lbp; t1 <= ubp; t1++) {
      lb2 = 4 * t1;
      ub2 = min(NI - 1, lb2 + 3);
      for (t2 = lb2; t2 <= ub2; t2++) {
        lbv = 0;
        ubv = NJ - 1;
#pragma ivdep
#pragma vector always
        for (t3 = lbv; t3 <= ubv; t3++) {
          C[t2][t3] *= beta;
          for (t4 = 0; t4 <= NK - 1; t4++)
            C[t2][t3] += alpha * A[t2][t4] * B[t4][t3];
        }
      }
    }
  }
}
