// convolution: out = in convolved with the 3 by 3 kernel k, where in has one more row and column on each side.
// The start at 0.0 has a nest of its own; the image is cut into tiles of 2 by 4.
// Equal: the pixels don't meet, and each sum keeps the order of the kernel.
void convolution(int H, int W, double k[3][3], double in[H + 2][W + 2], double out[H][W]) {
  int i, j, p, q, it, jt;
  for (i = 0; i < H; i++)
    for (j = 0; j < W; j++)
      out[i][j] = 0.0;
  for (it = 0; it < H; it += 2)
    for (jt = 0; jt < W; jt += 4)
      for (i = it; i < it + 2 && i < H; i++)
        for (j = jt; j < jt + 4 && j < W; j++)
          for (p = 0; p < 3; p++)
            for (q = 0; q < 3; q++)
              out[i][j] += k[p][q] * in[i - p + 2][j - q + 2];
}
