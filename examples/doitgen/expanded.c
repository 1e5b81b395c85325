// doitgen: A[r][q][p] = the sum over s of A[r][q][s] C4[s][p], in place.
// The row of sums gets a row for each (r, q), so that all sums come first and all copies after them.
// Equal: row (r, q) of A is read for its own sums alone.
void doitgen(int NR, int NQ, int NP, double A[NR][NQ][NP], double C4[NP][NP]) {
  double sum[NR][NQ][NP];
  int r, q, p, s;
  for (r = 0; r < NR; r++)
    for (q = 0; q < NQ; q++)
      for (p = 0; p < NP; p++) {
        sum[r][q][p] = 0.0;
        for (s = 0; s < NP; s++)
          sum[r][q][p] += A[r][q][s] * C4[s][p];
      }
  for (r = 0; r < NR; r++)
    for (q = 0; q < NQ; q++)
      for (p = 0; p < NP; p++)
        A[r][q][p] = sum[r][q][p];
}
