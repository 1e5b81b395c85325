// red-black: T sweeps of a mean over a row, in place; first all even inner elements, then all odd ones; the ends stay.
// The loops count the elements of a colour: 2 i from 2 to N - 2, and 2 i + 1 from 1 to N - 2.
// Equal: they run through the same elements in the same order.
void red_black(int T, int N, double A[N]) {
  int t, i;
  for (t = 0; t < T; t++) {
    for (i = 1; i <= floord(N - 2, 2); i++)
      A[2*i] = 0.5 * (A[2*i - 1] + A[2*i + 1]);
    for (i = 0; i <= floord(N - 3, 2); i++)
      A[2*i + 1] = 0.5 * (A[2*i] + A[2*i + 2]);
  }
}
