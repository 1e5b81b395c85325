// convolution: out = in convolved with the 3 by 3 kernel k, with the parts of each sum exchanged.
// Wrong: only * is declared as commutative, and + is not.
// Different at the first element.
#pragma affine commutative *
void convolution(int H, int W, double k[3][3], double in[H + 2][W + 2], double out[H][W]) {
  int i, j, p, q;
  for (i = 0; i < H; i++)
    for (j = 0; j < W; j++) {
      out[i][j] = 0.0;
      for (p = 0; p < 3; p++)
        for (q = 0; q < 3; q++)
          out[i][j] = in[i - p + 2][j - q + 2] * k[p][q] + out[i][j];
    }
}
