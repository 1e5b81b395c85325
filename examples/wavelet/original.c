// wavelet: one lifting step, d[i] the odd samples less a prediction, s[i] the even samples with an update; two outputs.
// The original: first all of d, then all of s; at both ends of s the one neighbour stands for both.
#pragma affine context N >= 1
void wavelet(int N, const float x[2*N + 1], float s[N + 1], float d[N]) {
  int i;
  for (i = 0; i < N; i++)
    d[i] = x[2 * i + 1] - predict(x[2 * i], x[2 * i + 2]);
  s[0] = x[0] + update(d[0], d[0]);
  for (i = 1; i < N; i++)
    s[i] = x[2 * i] + update(d[i - 1], d[i]);
  s[N] = x[2 * N] + update(d[N - 1], d[N - 1]);
}
