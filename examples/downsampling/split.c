// downsampling: y has every second sample of x after smoothing with the weights 1/4, 1/2, 1/4.
// The even and the odd samples go into arrays of their own first, and the smoothing reads these.
// Equal: copies change no value.
void downsampling(int N, const float x[2*N + 1], float y[N]) {
  float even[N + 1], odd[N];
  for (int i = 0; i <= N; i++)
    even[i] = x[2 * i];
  for (int i = 0; i < N; i++)
    odd[i] = x[2 * i + 1];
  for (int i = 0; i < N; i++)
    y[i] = 0.25f * even[i] + 0.5f * odd[i] + 0.25f * even[i + 1];
}
