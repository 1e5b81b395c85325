// wavelet: one lifting step, d[i] the odd samples less a prediction, s[i] the even samples with an update; two outputs.
// d[0] is peeled, s[0] comes directly after it, and the two loops are fused.
// Equal: s[i] reads d[i - 1] and d[i], and both are there by then.
#pragma affine context N >= 1
void wavelet(int N, const float x[2*N + 1], float s[N + 1], float d[N]) {
  int i;
  d[0] = x[1] - predict(x[0], x[2]);
  s[0] = x[0] + update(d[0], d[0]);
  for (i = 1; i < N; i++) {
    d[i] = x[2 * i + 1] - predict(x[2 * i], x[2 * i + 2]);
    s[i] = x[2 * i] + update(d[i - 1], d[i]);
  }
  s[N] = x[2 * N] + update(d[N - 1], d[N - 1]);
}
