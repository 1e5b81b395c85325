// red-black: T sweeps of a mean over a row, in place; first all even inner elements, then all odd ones; the ends stay.
// The original: two loops over all inner elements, each with a test of the divisor 2.
void red_black(int T, int N, double A[N]) {
  int t, i;
  for (t = 0; t < T; t++) {
    for (i = 1; i < N - 1; i++)
      if (i % 2 == 0)
        A[i] = 0.5 * (A[i - 1] + A[i + 1]);
    for (i = 1; i < N - 1; i++)
      if ((i + 1) % 2 == 0)
        A[i] = 0.5 * (A[i - 1] + A[i + 1]);
  }
}
