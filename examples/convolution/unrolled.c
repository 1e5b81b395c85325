// convolution: out = in convolved with the 3 by 3 kernel k, where in has one more row and column on each side.
// The row of the kernel is unrolled whole, and the pixels of a row by 2, with a remainder for an odd width.
// Equal: each sum keeps the order of the kernel; t0 and t1 hold two sums on their way.
void convolution(int H, int W, double k[3][3], double in[H + 2][W + 2], double out[H][W]) {
  double t0, t1;
  int i, j, p;
  for (i = 0; i < H; i++)
    for (j = 0; j < W; j += 2)
      if (j + 1 < W) {
        t0 = 0.0;
        t1 = 0.0;
        for (p = 0; p < 3; p++) {
          t0 = t0 + k[p][0] * in[i - p + 2][j + 2] + k[p][1] * in[i - p + 2][j + 1] + k[p][2] * in[i - p + 2][j];
          t1 = t1 + k[p][0] * in[i - p + 2][j + 3] + k[p][1] * in[i - p + 2][j + 2] + k[p][2] * in[i - p + 2][j + 1];
        }
        out[i][j] = t0;
        out[i][j + 1] = t1;
      } else {
        t0 = 0.0;
        for (p = 0; p < 3; p++)
          t0 = t0 + k[p][0] * in[i - p + 2][j + 2] + k[p][1] * in[i - p + 2][j + 1] + k[p][2] * in[i - p + 2][j];
        out[i][j] = t0;
      }
}
