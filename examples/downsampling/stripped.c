// downsampling: y has every second sample of x after smoothing with the weights 1/4, 1/2, 1/4.
// The loop counts from 1 and is cut into strips of 3.
// Equal: 2 i in the subscripts becomes 2 (i - 1), and the strips have every sample once.
void downsampling(int N, const float x[2*N + 1], float y[N]) {
  for (int it = 1; it <= N; it += 3)
    for (int i = it; i < it + 3 && i <= N; i++)
      y[i - 1] = 0.25f * x[2 * i - 2] + 0.5f * x[2 * i - 1] + 0.25f * x[2 * i];
}
