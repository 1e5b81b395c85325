// sobel: the strength of the edges in the image in; abs, norm and clamp are functions; the border of out stays.
// The scalars are removed: both gradients stand in the call. The loops are interchanged.
// Equal: a scalar that is read once is as good as its value, and the pixels don't meet.
void sobel(int H, int W, int in[H][W], int out[H][W]) {
  int i, j;
  for (j = 1; j < W - 1; j++)
    for (i = 1; i < H - 1; i++)
      out[i][j] = clamp(norm(abs(in[i - 1][j + 1] + 2 * in[i][j + 1] + in[i + 1][j + 1]
                                 - in[i - 1][j - 1] - 2 * in[i][j - 1] - in[i + 1][j - 1]),
                             abs(in[i + 1][j - 1] + 2 * in[i + 1][j] + in[i + 1][j + 1]
                                 - in[i - 1][j - 1] - 2 * in[i - 1][j] - in[i - 1][j + 1])), 255);
}
