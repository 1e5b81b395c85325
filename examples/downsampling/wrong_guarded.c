// downsampling: y has every second sample of x after smoothing, with a loop over the samples of x.
// Wrong: the test takes the odd samples.
// Different at the first element wherever N is 1 or more.
void downsampling(int N, const float x[2*N + 1], float y[N]) {
  for (int k = 0; k < 2*N; k++)
    if ((k + 1) % 2 == 0)
      y[floord(k, 2)] = 0.25f * x[k] + 0.5f * x[k + 1] + 0.25f * x[k + 2];
}
