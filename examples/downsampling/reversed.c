// downsampling: y has every second sample of x after smoothing with the weights 1/4, 1/2, 1/4.
// The loop runs backwards.
// Equal: no output sample reads another one.
void downsampling(int N, const float x[2*N + 1], float y[N]) {
  for (int i = N - 1; i >= 0; i--)
    y[i] = 0.25f * x[2 * i] + 0.5f * x[2 * i + 1] + 0.25f * x[2 * i + 2];
}
