// doitgen: A[r][q][p] = the sum over s of A[r][q][s] C4[s][p], in place.
// The original: a row of sums, then the row is copied back.
void doitgen(int NR, int NQ, int NP, double A[NR][NQ][NP], double C4[NP][NP]) {
  double sum[NP];
  int r, q, p, s;
  for (r = 0; r < NR; r++)
    for (q = 0; q < NQ; q++) {
      for (p = 0; p < NP; p++) {
        sum[p] = 0.0;
        for (s = 0; s < NP; s++)
          sum[p] += A[r][q][s] * C4[s][p];
      }
      for (p = 0; p < NP; p++)
        A[r][q][p] = sum[p];
    }
}
