// sobel: the strength of the edges in the image in, the gradients in images and the last nest shifted by one row.
// Wrong: out is written at row i - 1, but gy is still read at row i, where the shift was forgotten; gx is right.
// Different at [1][1]; the last turn reads a row of gy that is never assigned.
void sobel(int H, int W, int in[H][W], int out[H][W]) {
  int gx[H][W], gy[H][W], i, j;
  for (i = 1; i < H - 1; i++)
    for (j = 1; j < W - 1; j++) {
      gx[i][j] = in[i - 1][j + 1] + 2 * in[i][j + 1] + in[i + 1][j + 1]
               - in[i - 1][j - 1] - 2 * in[i][j - 1] - in[i + 1][j - 1];
      gy[i][j] = in[i + 1][j - 1] + 2 * in[i + 1][j] + in[i + 1][j + 1]
               - in[i - 1][j - 1] - 2 * in[i - 1][j] - in[i - 1][j + 1];
    }
  for (i = 2; i < H; i++)
    for (j = 1; j < W - 1; j++)
      out[i - 1][j] = clamp(norm(abs(gx[i - 1][j]), abs(gy[i][j])), 255);
}
