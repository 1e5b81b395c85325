// sobel: the strength of the edges in the image in; abs, norm and clamp are functions; the border of out stays.
// gy is formed before gx, and stands first in norm, which the line above the function declares as commutative.
// Equal by this declaration.
#pragma affine commutative norm
void sobel(int H, int W, int in[H][W], int out[H][W]) {
  int gx, gy, i, j;
  for (i = 1; i < H - 1; i++)
    for (j = 1; j < W - 1; j++) {
      gy = in[i + 1][j - 1] + 2 * in[i + 1][j] + in[i + 1][j + 1]
         - in[i - 1][j - 1] - 2 * in[i - 1][j] - in[i - 1][j + 1];
      gx = in[i - 1][j + 1] + 2 * in[i][j + 1] + in[i + 1][j + 1]
         - in[i - 1][j - 1] - 2 * in[i][j - 1] - in[i + 1][j - 1];
      out[i][j] = clamp(norm(abs(gy), abs(gx)), 255);
    }
}
