// fir: a filter with the five taps h, with n shifted by 4 to count the samples of x.
// Wrong: y is written at n - 4, but x is still read at n - k + 4, where the shift was forgotten.
// Different at every element, so [0] is named; the last turns also read past the array.
void fir(int N, const double h[5], const double x[N + 4], double y[N]) {
  int n, k;
  for (n = 4; n < N + 4; n++) {
    y[n - 4] = 0.0;
    for (k = 0; k < 5; k++)
      y[n - 4] += h[k] * x[n - k + 4];
  }
}
