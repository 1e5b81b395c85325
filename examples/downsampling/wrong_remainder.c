// downsampling: y has every second sample of x after smoothing, with the loop unrolled by 2.
// Wrong: there is no remainder, so the last sample of an odd N is never assigned.
// Different at element [N-1] at every odd N; an even N hides it.
void downsampling(int N, const float x[2*N + 1], float y[N]) {
  for (int i = 0; i + 1 < N; i += 2) {
    y[i] = 0.25f * x[2 * i] + 0.5f * x[2 * i + 1] + 0.25f * x[2 * i + 2];
    y[i + 1] = 0.25f * x[2 * i + 2] + 0.5f * x[2 * i + 3] + 0.25f * x[2 * i + 4];
  }
}
