// convolution: out = in convolved with the 3 by 3 kernel k, where in has one more row and column on each side.
// Sums and products have their parts exchanged; the line above the function declares + and * as commutative.
// Equal by this declaration; each sum still keeps the order of the kernel.
#pragma affine commutative + *
void convolution(int H, int W, double k[3][3], double in[H + 2][W + 2], double out[H][W]) {
  int i, j, p, q;
  for (i = 0; i < H; i++)
    for (j = 0; j < W; j++) {
      out[i][j] = 0.0;
      for (p = 0; p < 3; p++)
        for (q = 0; q < 3; q++)
          out[i][j] = in[i - p + 2][j - q + 2] * k[p][q] + out[i][j];
    }
}
