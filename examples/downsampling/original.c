// downsampling: y has every second sample of x after smoothing with the weights 1/4, 1/2, 1/4.
// The original: sample after sample of the output; the step of 2 stands in the subscripts.
void downsampling(int N, const float x[2*N + 1], float y[N]) {
  for (int i = 0; i < N; i++)
    y[i] = 0.25f * x[2 * i] + 0.5f * x[2 * i + 1] + 0.25f * x[2 * i + 2];
}
