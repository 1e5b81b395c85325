// doitgen: A[r][q][p] = the sum over s of A[r][q][s] C4[s][p], in place.
// The loops over r and q are interchanged; the one over s is unrolled by 3, an else holds the remainder loop.
// Equal: the rows don't meet, and each sum keeps the order of s.
void doitgen(int NR, int NQ, int NP, double A[NR][NQ][NP], double C4[NP][NP]) {
  double sum[NP];
  int r, q, p, s, rest;
  for (q = 0; q < NQ; q++)
    for (r = 0; r < NR; r++) {
      for (p = 0; p < NP; p++) {
        sum[p] = 0.0;
        for (s = 0; s < NP; s += 3)
          if (s + 2 < NP) {
            sum[p] += A[r][q][s] * C4[s][p];
            sum[p] += A[r][q][s + 1] * C4[s + 1][p];
            sum[p] += A[r][q][s + 2] * C4[s + 2][p];
          } else
            for (rest = s; rest < NP; rest++)
              sum[p] += A[r][q][rest] * C4[rest][p];
      }
      for (p = 0; p < NP; p++)
        A[r][q][p] = sum[p];
    }
}
