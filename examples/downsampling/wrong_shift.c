// downsampling: y has every second sample of x after smoothing, with the loop counting from 1.
// Wrong: y is written at i - 1, but x is still read around 2 i + 1, where the shift was forgotten.
// Different at the first element; the last turn also reads past the array.
void downsampling(int N, const float x[2*N + 1], float y[N]) {
  for (int i = 1; i <= N; i++)
    y[i - 1] = 0.25f * x[2 * i] + 0.5f * x[2 * i + 1] + 0.25f * x[2 * i + 2];
}
