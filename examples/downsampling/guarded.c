// downsampling: y has every second sample of x after smoothing with the weights 1/4, 1/2, 1/4.
// The loop runs over the samples of x, and a test of the divisor takes every second one.
// Equal: for k = 2 i the quotient is i.
void downsampling(int N, const float x[2*N + 1], float y[N]) {
  for (int k = 0; k < 2*N; k++)
    if (k % 2 == 0)
      y[floord(k, 2)] = 0.25f * x[k] + 0.5f * x[k + 1] + 0.25f * x[k + 2];
}
