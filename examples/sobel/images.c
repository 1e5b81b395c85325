// sobel: the strength of the edges in the image in; abs, norm and clamp are functions; the border of out stays.
// The gradients become images (scalar expansion), and the nest is split into three.
// Equal: each pixel of out reads the gradients of its own place.
void sobel(int H, int W, int in[H][W], int out[H][W]) {
  int gx[H][W], gy[H][W], i, j;
  for (i = 1; i < H - 1; i++)
    for (j = 1; j < W - 1; j++)
      gx[i][j] = in[i - 1][j + 1] + 2 * in[i][j + 1] + in[i + 1][j + 1]
               - in[i - 1][j - 1] - 2 * in[i][j - 1] - in[i + 1][j - 1];
  for (i = 1; i < H - 1; i++)
    for (j = 1; j < W - 1; j++)
      gy[i][j] = in[i + 1][j - 1] + 2 * in[i + 1][j] + in[i + 1][j + 1]
               - in[i - 1][j - 1] - 2 * in[i - 1][j] - in[i - 1][j + 1];
  for (i = 1; i < H - 1; i++)
    for (j = 1; j < W - 1; j++)
      out[i][j] = clamp(norm(abs(gx[i][j]), abs(gy[i][j])), 255);
}
