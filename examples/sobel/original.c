// sobel: the strength of the edges in the image in; abs, norm and clamp are functions; the border of out stays.
// The original: pixel after pixel, both gradients in scalars.
void sobel(int H, int W, int in[H][W], int out[H][W]) {
  int gx, gy, i, j;
  for (i = 1; i < H - 1; i++)
    for (j = 1; j < W - 1; j++) {
      gx = in[i - 1][j + 1] + 2 * in[i][j + 1] + in[i + 1][j + 1]
         - in[i - 1][j - 1] - 2 * in[i][j - 1] - in[i + 1][j - 1];
      gy = in[i + 1][j - 1] + 2 * in[i + 1][j] + in[i + 1][j + 1]
         - in[i - 1][j - 1] - 2 * in[i - 1][j] - in[i - 1][j + 1];
      out[i][j] = clamp(norm(abs(gx), abs(gy)), 255);
    }
}
