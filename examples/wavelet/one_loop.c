// wavelet: one lifting step, d[i] the odd samples less a prediction, s[i] the even samples with an update; two outputs.
// One loop over all even samples: branches split off the first one, the last one and those between.
// Equal: in turn i the element d[i], where there is one, comes before s[i].
#pragma affine context N >= 1
void wavelet(int N, const float x[2*N + 1], float s[N + 1], float d[N]) {
  int i;
  for (i = 0; i <= N; i++) {
    if (i < N)
      d[i] = x[2 * i + 1] - predict(x[2 * i], x[2 * i + 2]);
    if (i == 0)
      s[i] = x[0] + update(d[0], d[0]);
    else if (i == N)
      s[i] = x[2 * i] + update(d[i - 1], d[i - 1]);
    else
      s[i] = x[2 * i] + update(d[i - 1], d[i]);
  }
}
