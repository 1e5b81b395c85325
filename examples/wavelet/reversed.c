// wavelet: one lifting step, d[i] the odd samples less a prediction, s[i] the even samples with an update; two outputs.
// Both loops run backwards, and the ends of s are exchanged with them.
// Equal: no element of d reads another one of d, and none of s another one of s.
#pragma affine context N >= 1
void wavelet(int N, const float x[2*N + 1], float s[N + 1], float d[N]) {
  int i;
  for (i = N - 1; i >= 0; i--)
    d[i] = x[2 * i + 1] - predict(x[2 * i], x[2 * i + 2]);
  s[N] = x[2 * N] + update(d[N - 1], d[N - 1]);
  for (i = N - 1; i >= 1; i--)
    s[i] = x[2 * i] + update(d[i - 1], d[i]);
  s[0] = x[0] + update(d[0], d[0]);
}
