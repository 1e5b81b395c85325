// doitgen: A[r][q][p] = the sum over s of A[r][q][s] C4[s][p], with the loop over s unrolled by 3.
// Wrong: there is no remainder loop, so sums end early where NP is no multiple of 3.
// Different at the first element there; NP = 3 or 6 hides it.
void doitgen(int NR, int NQ, int NP, double A[NR][NQ][NP], double C4[NP][NP]) {
  double sum[NP];
  int r, q, p, s;
  for (r = 0; r < NR; r++)
    for (q = 0; q < NQ; q++) {
      for (p = 0; p < NP; p++) {
        sum[p] = 0.0;
        for (s = 0; s + 2 < NP; s += 3) {
          sum[p] += A[r][q][s] * C4[s][p];
          sum[p] += A[r][q][s + 1] * C4[s + 1][p];
          sum[p] += A[r][q][s + 2] * C4[s + 2][p];
        }
      }
      for (p = 0; p < NP; p++)
        A[r][q][p] = sum[p];
    }
}
