// convolution: out = in convolved with the 3 by 3 kernel k, where in has one more row and column on each side.
// The original: pixel after pixel, the kernel in order and the image against it.
void convolution(int H, int W, double k[3][3], double in[H + 2][W + 2], double out[H][W]) {
  int i, j, p, q;
  for (i = 0; i < H; i++)
    for (j = 0; j < W; j++) {
      out[i][j] = 0.0;
      for (p = 0; p < 3; p++)
        for (q = 0; q < 3; q++)
          out[i][j] += k[p][q] * in[i - p + 2][j - q + 2];
    }
}
