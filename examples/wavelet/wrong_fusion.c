// wavelet: one lifting step, d[i] the odd samples less a prediction, s[i] the even samples with an update; two outputs.
// Wrong: s[i + 1] is formed in the turn of d[i], without a shift, and reads d[i + 1] one turn too early.
// s is different at [1] where N is 2 or more, d is equal.
#pragma affine context N >= 1
void wavelet(int N, const float x[2*N + 1], float s[N + 1], float d[N]) {
  int i;
  for (i = 0; i < N - 1; i++) {
    d[i] = x[2 * i + 1] - predict(x[2 * i], x[2 * i + 2]);
    s[i + 1] = x[2 * i + 2] + update(d[i], d[i + 1]);
  }
  d[N - 1] = x[2 * N - 1] - predict(x[2 * N - 2], x[2 * N]);
  s[0] = x[0] + update(d[0], d[0]);
  s[N] = x[2 * N] + update(d[N - 1], d[N - 1]);
}
