// red-black: T sweeps of a mean over a row, in place, with loops that count the elements of a colour.
// Wrong: the end of the odd elements is one off: 2 i + 1 runs to floord(N - 4, 2), which leaves out N - 2 if it is odd.
// Different where T is 1 or more and N is odd and 3 or more: with T = 1 at [N-2].
void red_black(int T, int N, double A[N]) {
  int t, i;
  for (t = 0; t < T; t++) {
    for (i = 1; i <= floord(N - 2, 2); i++)
      A[2*i] = 0.5 * (A[2*i - 1] + A[2*i + 1]);
    for (i = 0; i <= floord(N - 4, 2); i++)
      A[2*i + 1] = 0.5 * (A[2*i] + A[2*i + 2]);
  }
}
