// red-black: T sweeps of a mean over a row, in place; first all even inner elements, then all odd ones; the ends stay.
// The loops have the step 2, and that over the odd elements falls from the greatest odd number below N - 1.
// Equal: elements of one colour do not read each other, so their order is free.
void red_black(int T, int N, double A[N]) {
  int t, i;
  for (t = 0; t < T; t++) {
    for (i = 2; i < N - 1; i += 2)
      A[i] = 0.5 * (A[i - 1] + A[i + 1]);
    for (i = 2*floord(N - 3, 2) + 1; i >= 1; i -= 2)
      A[i] = 0.5 * (A[i - 1] + A[i + 1]);
  }
}
