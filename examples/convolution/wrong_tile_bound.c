// convolution: out = in convolved with the 3 by 3 kernel k, with the pixels of a row in strips of 4.
// Wrong: a strip ends with j < jt + 3, one short, so every fourth pixel of a row is never assigned.
// Different at [0][3] where W is 4 or more.
void convolution(int H, int W, double k[3][3], double in[H + 2][W + 2], double out[H][W]) {
  int i, j, p, q, jt;
  for (i = 0; i < H; i++)
    for (jt = 0; jt < W; jt += 4)
      for (j = jt; j < jt + 3 && j < W; j++) {
        out[i][j] = 0.0;
        for (p = 0; p < 3; p++)
          for (q = 0; q < 3; q++)
            out[i][j] += k[p][q] * in[i - p + 2][j - q + 2];
      }
}
